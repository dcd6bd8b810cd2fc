#!/usr/bin/env bash
# A radio block centre for a while: bash bench/soak.sh [MINUTES [TRAINS [HOSTILE]]], 30 minutes, 256 trains and 60 hostile clients unless told.
# One `serve` on the loopback address. Each train, written apart from the product (tests/train.py), sends a report of 24 octets a second and wants
# each said back, in order, before the next. The hostile clients send random octets, well-framed random frames, set-up frames without end, nothing, or
# half a frame; some read nothing. Once a second a train is cut off in mid-frame, and calls again. Where all 256 places are taken, whoever
# comes is turned away, and comes again. Behind it the server is ended by SIGTERM, its recording split by tools/recording, and each connection
# replayed, which must print it again.
# Told each minute: trains that are connected, messages, memory, descriptors, processor time a message, octets of recording. It fails where an
# echo is wrong or out of order, memory or descriptors grow behind the first minute, or a replay differs; processor time is told alone.
# Takes the built program as it is; PROGRAM names another. The recording grows by some 15 MB a minute, in $TMPDIR.
set -u
cd "$(dirname "$0")/.." || exit 1
program=${PROGRAM:-$PWD/crates/euroradio/out/euroradio}
command -v python3 > /dev/null || { echo "soak.sh: python3 is wanted; nothing is measured"; exit 0; }
[ -x "$program" ] || { echo "the program was not built"; exit 1; }
exec python3 bench/soak.py "$program" "${1:-30}" "${2:-256}" "${3:-60}"
