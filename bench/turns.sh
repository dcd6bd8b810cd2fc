#!/usr/bin/env bash
# Two built programs in turns, on what a change may make slower: bash bench/turns.sh OLD NEW [OLD_BENCH NEW_BENCH]
# Drills at levels safe and full, a bulk run, a replay, an audit, and calls over loopback sockets (of these the server's processor time); and, where two
# built programs of crates/bench are named, two whole ends in one process. Each is run by the one and by the other, in turns and round after round, so what
# else the machine does is heard by both. Takes MINUTES (5 unless told), and at least five rounds; or PAIRS rounds, where that is set. Prints a table: the
# least processor time of each, how many times as much NEW takes by the least and at the median of the pairs, and between what half of the pairs lie; and
# with which machine. Nothing is asserted.
set -u
command -v python3 > /dev/null || { echo "turns.sh: python3 is wanted"; exit 1; }
usage() {
  echo "usage: bash bench/turns.sh OLD NEW [OLD_BENCH NEW_BENCH], two built programs, and two of crates/bench"
  exit 1
}
[ $# -eq 2 ] || [ $# -eq 4 ] || usage
for program in "$@"; do
  [ -f "$program" ] && [ -x "$program" ] || usage
done
exec python3 "$(dirname "$0")/turns.py" "$@"
