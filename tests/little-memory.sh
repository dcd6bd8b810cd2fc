#!/usr/bin/env bash
# Refuses growths of memory to the built program one at a time, while it serves a train over a loopback socket. What it printed must be a
# beginning of a recording, told by a replay of it, and its answer want of memory; or it turned the one train away that wanted it, and served on.
# `little-memory.sh` tries a sample, `little-memory.sh all` each growth until none is left to refuse, but for most of the users' boxes, which are alike
# (some minutes). Then each growth, the first 399 in a sample, is refused to each command that reads a file, and to a bulk run: want of memory behind
# a beginning of what it prints, or all of it. Takes the built program as it is; PROGRAM names another. Closes with 'N growths refused, .. M failed'.
set -u
cd "$(dirname "$0")/.." || exit 1
program=${PROGRAM:-$PWD/crates/euroradio/out/euroradio}
[ -x "$program" ] || { echo "the program was not built"; exit 1; }
work=$(mktemp -d) || exit 1
trap 'rm -rf "$work"' EXIT
cc -shared -fPIC -O1 -o "$work/refusing.so" tests/refusing.c || { echo "no C compiler for what refuses memory"; exit 1; }
python3 tests/little-memory.py "$program" "$work/refusing.so" "$work" "${1:-sample}"
