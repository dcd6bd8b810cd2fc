#!/usr/bin/env bash
# Runs each command of the built program with each choice of the three standard streams closed: without the standard output it ends with status 5 and
# did nothing; without the others it does what it does with all, and a peer gets the octets of the recording and no other. Takes the built program as
# it is; PROGRAM names another. Closes with 'N passed, M failed'.
set -u
cd "$(dirname "$0")/.." || exit 1
program=${PROGRAM:-$PWD/crates/euroradio/out/euroradio}
[ -x "$program" ] || { echo "the program was not built"; exit 1; }
exec python3 tests/closed-streams.py "$program"
