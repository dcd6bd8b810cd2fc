#!/usr/bin/env bash
# Gives each command some forty wrong inputs, and holds that the standard output is to the octet what the page of formats says, and that the standard error names
# the file, the line, the word or the address, with no control octet. Takes the built program as it is; PROGRAM names another.
set -u
cd "$(dirname "$0")/.." || exit 1
program=${PROGRAM:-$PWD/crates/euroradio/out/euroradio}
[ -x "$program" ] || { echo "the program was not built"; exit 1; }
exec python3 tests/refusals.py "$program"
