#!/usr/bin/env bash
# The laboratory's cases in examples/laboratory/: each names a rule of docs/FORMATS.md; all pass against this repository's own `serve` and `call`; a device with another key fails and
# leaves its tap, capture and chart; one that isn't there is inconclusive. Takes the built program, or the one that PROGRAM names. Where pytest isn't installed this is told, and
# nothing is tried. `tests/laboratory.sh --designs` compiles three wrong programs of tests/designs/ instead, some two processor minutes each, which fail at the cases that should
# and at no others. Closes with 'N passed, M failed'.
set -u
cd "$(dirname "$0")/.." || exit 1
program=${PROGRAM:-$PWD/crates/euroradio/out/euroradio}
[ -x "$program" ] || { echo "the program was not built"; exit 1; }
exec python3 tests/laboratory.py "$program" "$@"
