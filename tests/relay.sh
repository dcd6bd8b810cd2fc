#!/usr/bin/env bash
# Runs `relay` of the built program between clients and devices over loopback sockets: worked rows in several cuts, turns, statuses, delays, closes, ends, a
# device that doesn't read, 256 connections and one more, and random scripts over random octets, held against a model in another language. Takes the built
# program as it is; PROGRAM names another. Closes with 'N checks, M failed'.
set -u
cd "$(dirname "$0")/.." || exit 1
program=${PROGRAM:-$PWD/crates/euroradio/out/euroradio}
[ -x "$program" ] || { echo "the program was not built"; exit 1; }
exec python3 tests/relay.py "$program"
