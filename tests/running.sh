#!/usr/bin/env bash
# What docs/RUNNING.md says of a service: the unit in examples/running is read by systemd-analyze, where it is installed, and its command run as systemd
# spells it; a recording that goes through a pipe into files of some size; a pipe that isn't read. Takes the built program as it is;
# PROGRAM names another. Closes with 'N checks, M failed'.
set -u
cd "$(dirname "$0")/.." || exit 1
program=${PROGRAM:-$PWD/crates/euroradio/out/euroradio}
[ -x "$program" ] || { echo "the program was not built"; exit 1; }
exec python3 tests/running.py "$program"
