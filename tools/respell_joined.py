#!/usr/bin/env python3
"""Respells this repository's lemmas and fields in which dashes stand for spaces, as in `line-back` and `put-adds`.

The library joins two names by a dash, as in `length-drop`, and writes plain words with `_`. So a dash stays behind the
name of a definition (`ring-next`, `kind_at-code`), and is `_` elsewhere; a fact keeps its capital (`Lacks-append`). Run
once, after tools/respell.py. Only names that this repository declares are touched. Prints what it renamed.
"""
import os
import re

DASHED = r"[A-Za-z_][\w']*(?:-[\w']+)+"
DECLARED = re.compile(rf"(?m)^\s*(?:(?:abbrev|unfoldable|pub) )*({DASHED}) :(?! goal\.)")
TOKEN = re.compile(rf"(?<![\w'-]){DASHED}(?![\w'-])")
# definitions behind whose names a dash joins
HEADS = (
    "all_of before behind checked decimal event_of headed joined kind_at line_of lowered raised ring stamp_by stamp_of "
    "stripped take writes"
).split()
OTHERS = {
    "frame-fits": "frame_fits_lem",
    "lacks-append": "Lacks-append",
    "starts-same": "Starts-same",
    "starts-within": "Starts-within",
    "take-leaves": "take_leaves",
    "take-set-comm": "take-set_comm",
}


def new_name(name):
    if name in OTHERS:
        return OTHERS[name]
    if name.split("-")[0] in HEADS:
        return name
    return name.replace("-", "_")


def main():
    texts = {}
    for folder, dirs, names in os.walk("crates"):
        dirs[:] = sorted(d for d in dirs if d != "out")
        for name in sorted(names):
            if name.endswith((".antt", ".rt", ".edit")):
                path = os.path.join(folder, name)
                with open(path, encoding="utf-8") as f:
                    texts[path] = f.read()
    declared = {n for path, t in texts.items() if path.endswith(".antt") for n in DECLARED.findall(t)}
    words = {w for t in texts.values() for w in re.findall(r"(?<![\w'-])[A-Za-z_][\w']*(?:-[\w']+)*", t)}
    renamed = {n: new_name(n) for n in sorted(declared) if new_name(n) != n}
    assert len(set(renamed.values())) == len(renamed), "two names fall together"
    for path, text in texts.items():
        turned = TOKEN.sub(lambda m: renamed.get(m.group(0), m.group(0)), text)
        if turned != text:
            with open(path, "w", encoding="utf-8") as f:
                f.write(turned)
    for old, new in renamed.items():
        print(f"{old} -> {new}" + ("  (a word of this spelling was there before)" if new in words else ""))


main()
