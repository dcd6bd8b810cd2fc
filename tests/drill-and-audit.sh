#!/usr/bin/env bash
# Audits what drills passed: on a line that keeps order every SaPDU is good; on hostile lines none that was altered or is foreign is. Takes the built
# program as it is; PROGRAM names another. Closes with 'N passed, M failed'.
set -u
cd "$(dirname "$0")/.." || exit 1
program=${PROGRAM:-$PWD/crates/euroradio/out/euroradio}
[ -x "$program" ] || { echo "the program was not built"; exit 1; }
command -v python3 > /dev/null || { echo "python3 is wanted, to read what was passed"; exit 0; }
python3 tests/drill-and-audit.py "$program"
