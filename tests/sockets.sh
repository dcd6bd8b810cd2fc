#!/usr/bin/env bash
# Serves ten trains at once over loopback sockets with the built program, beside three hostile clients, and replays what was recorded. Takes the
# built program as it is; PROGRAM names another. Closes with 'N checks, M failed'.
set -u
cd "$(dirname "$0")/.." || exit 1
program=${PROGRAM:-$PWD/crates/euroradio/out/euroradio}
[ -x "$program" ] || { echo "the program was not built"; exit 1; }
exec python3 tests/sockets.py "$program"
