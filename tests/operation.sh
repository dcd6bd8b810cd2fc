#!/usr/bin/env bash
# Days of operation with the built program: standard streams that are closed, a wall clock that is set, three hundred trains one after the other, no bound
# of turns, what is told on the standard error, limits of the system. Takes the built program as it is; PROGRAM names another. Closes with 'N passed, M failed'.
set -u
cd "$(dirname "$0")/.." || exit 1
program=${PROGRAM:-$PWD/crates/euroradio/out/euroradio}
[ -x "$program" ] || { echo "the program was not built"; exit 1; }
work=$(mktemp -d) || exit 1
trap 'rm -rf "$work"' EXIT
cc -shared -fPIC -O1 -o "$work/clock.so" tests/clock.c || { echo "no C compiler for what sets the clock"; exit 1; }
python3 tests/operation.py "$program" "$work"
