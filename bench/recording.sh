#!/usr/bin/env bash
# How the recording of `serve` grows: bash bench/recording.sh
# Octets of recording that a connection costs which sends nothing and leaves, one that is connected, a message and its echo, and each octet of a
# stranger's: flags, set-up frames, random octets, frames that are good and mean nothing. Nothing is asserted. Takes the built program as it is; PROGRAM names another.
set -u
cd "$(dirname "$0")/.." || exit 1
program=${PROGRAM:-$PWD/crates/euroradio/out/euroradio}
command -v python3 > /dev/null || { echo "recording.sh: python3 is wanted; nothing is measured"; exit 0; }
[ -x "$program" ] || { echo "the program was not built"; exit 1; }
exec python3 bench/recording.py "$program"
