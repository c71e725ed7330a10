#!/usr/bin/env python3
"""Respells this repository's own definitions and lemmas as the toolchain's library spells its own.

Words in camel case become words in snake case (`lineWaits` is `line_waits`, `allOf-back` is `all_of-back`), in contracts,
definitions, proofs and edits; types, modules and what Rattle itself names (`returns-..`, `in-..`) stay. Two words of the
library are no longer brought in under another name. Run once, at the top of the repository, after the toolchain's port.py.
Functions, strings and outputs have no such words. Prints what it renamed, and names that were there before.
"""
import os
import re

TOKEN = re.compile(r"(?<![\w'-])[a-z][\w'-]*")
MADE = ("returns-", "in-", "not-", "bytes_eq-")
ALIASES = {"AllByRecursion as All": ("AllByRecursion", "All"), "ContainsAt as Has": ("ContainsAt", "Has")}
OTHERS = {"ring-getD": "ring-get_or"}


def snake(word):
    return re.sub(r"(?<=[a-z0-9])([A-Z])", lambda m: "_" + m.group(1).lower(), word)


def new_name(word):
    if word in OTHERS:
        return OTHERS[word]
    if word.startswith(MADE) or not re.search("[A-Z]", word):
        return word
    return snake(word)


def files():
    for folder, dirs, names in os.walk("crates"):
        dirs[:] = sorted(d for d in dirs if d != "out")
        for name in sorted(names):
            if name.endswith((".antt", ".rt", ".edit")):
                yield os.path.join(folder, name)


def main():
    before, renamed = set(), {}
    texts = {}
    for path in files():
        with open(path, encoding="utf-8") as f:
            texts[path] = f.read()
        before |= set(TOKEN.findall(texts[path]))
    for path, text in texts.items():
        turned = text
        for spelled, (name, alias) in ALIASES.items():
            if spelled in turned:
                turned = re.sub(rf"(?<![\w'-]){alias}(?![\w'-])", name, turned.replace(spelled, name))

        def turn(m):
            to = new_name(m.group(0))
            if to != m.group(0):
                renamed[m.group(0)] = to
            return to

        turned = TOKEN.sub(turn, turned)
        if turned != text:
            with open(path, "w", encoding="utf-8") as f:
                f.write(turned)
    for old, new in sorted(renamed.items()):
        print(f"{old} -> {new}" + ("  (a word of this spelling was there before)" if new in before else ""))
    assert len(set(renamed.values())) == len(renamed), "two names fall together"


main()
