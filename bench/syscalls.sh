#!/usr/bin/env bash
# The system calls of `serve` for one `call` of three reports over loopback: bash bench/syscalls.sh
# Which there are, how often, and to what: the listener, the connection, the recording, epoll. Fifty calls one after the other, by strace, beside
# a `serve` that nobody calls. Nothing is asserted. Takes the built program as it is; PROGRAM names another.
set -u
cd "$(dirname "$0")/.." || exit 1
program=${PROGRAM:-$PWD/crates/euroradio/out/euroradio}
command -v strace > /dev/null || { echo "syscalls.sh: strace isn't installed; nothing is counted"; exit 0; }
command -v python3 > /dev/null || { echo "syscalls.sh: python3 is wanted; nothing is counted"; exit 0; }
[ -x "$program" ] || { echo "the program was not built"; exit 1; }
exec python3 bench/syscalls.py "$program"
