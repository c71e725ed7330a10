#!/bin/sh
# Builds the proved library, the plain C code and the program that compares them, and runs it.
set -eu
cd "$(dirname "$0")/.."
out=target/bench
mkdir -p $out
(cd crates/frames_c && rt lib) >$out/lib.log 2>&1 || { cat $out/lib.log; exit 1; }
gcc -O3 -Wall -Wextra -c bench/plain.c -o $out/plain.o
gcc -O3 -Wall -Wextra -c bench/frames.c -o $out/frames.o
gcc $out/frames.o $out/plain.o crates/frames_c/out/libframes_c.a -o $out/frames
$out/frames
