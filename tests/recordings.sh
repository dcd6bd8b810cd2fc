#!/usr/bin/env bash
# `check` of recordings that are whole, changed in one octet of each outcome in turn, or cut at each octet; and of one that `serve` wrote of three
# connections. Takes the built program as it is; PROGRAM names another. Closes with 'N passed, M failed'.
set -u
cd "$(dirname "$0")/.." || exit 1
program=${PROGRAM:-$PWD/crates/euroradio/out/euroradio}
[ -x "$program" ] || { echo "the program was not built"; echo "0 passed, 1 failed"; exit 1; }
exec python3 tests/recordings.py "$program"
