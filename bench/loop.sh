#!/usr/bin/env bash
# The readiness loop as a radio block centre of 1, 16 and 256 trains: bash bench/loop.sh
# First over wires in memory: each train is connected and sends 1,000 position reports of 24 octets, each once the one before was said back.
# The loop serves live trains once, and then the record of what they sent, round by round: what is told is the loop's own time in the rounds of
# the record: messages a second of processor time (so many reports that came and were said back), of the set-up by itself, and what a message
# costs with 16 and 256 trains against with one. A round of each case takes about as long, and all cases go on in turns, so that what else the
# machine does is heard by each. And the memory of a connection, with the end of its train. The journal is printed and counted, and kept nowhere.
# Then over loopback sockets, 256 calls a round, a process each, begun one by one, 16 or 256 without waiting for each other: `euroradio serve`, which
# writes its journal to a file, called by `euroradio call` (a set-up, three position reports that are said back, a release); and beside it, as the
# floor, a C server that says back what it reads, called by C clients that are as many processes, begun so too, and write as often and as many octets
# as a call does. Both servers live all the while, on one processor, their clients on the others, and are called in turns, so what else the machine
# does is heard by both. What is compared is the servers' processor time a call, user and system, from the first connection of a round to its last
# close; not that of their clients. Then 256 trains at once, whose reports are said back by Echo, in the program, and by an application in Python at the
# socket of `serve`: the server's processor time a message, and messages a second; the trains are 256 `call`s with one application, which says the next
# report of each once the one before came back. Then the memory of a connection that was accepted. Each figure is the best of several runs or rounds, but where it
# says median. Nothing is asserted. Wants `rt` and python3, and for the floor a C compiler.
# PROGRAM names another program than the built one, and then it is measured over sockets alone; ROUNDS is how many rounds over sockets, 15 unless told.
set -eu
cd "$(dirname "$0")/.."
[ -n "${PROGRAM:-}" ] || command -v rt > /dev/null || { echo "loop.sh: there is no rt to build the programs with; nothing is measured"; exit 0; }
command -v python3 > /dev/null || { echo "loop.sh: python3 is wanted, to measure; nothing is measured"; exit 0; }
work=$(mktemp -d)
trap 'rm -rf "$work"' EXIT

build() {
  (cd "crates/$1" && shift && rt run -- "$@") > "$work/log" 2>&1 || { cat "$work/log"; exit 1; }
}
if [ -n "${PROGRAM:-}" ]; then
  in_memory=none
else
  build bench trains 1 1 0
  build euroradio drill ../../examples/two-way.drill
  in_memory=$PWD/crates/bench/out/bench
fi

floor=none
compiler=${CC:-cc}
if command -v "$compiler" > /dev/null; then
  "$compiler" -O2 -Wall -Wextra -o "$work/floor" bench/loop_floor.c
  floor=$work/floor
fi

python3 bench/loop.py "$in_memory" "${PROGRAM:-$PWD/crates/euroradio/out/euroradio}" "$floor" "$work" "${ROUNDS:-15}"
