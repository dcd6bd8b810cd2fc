#!/usr/bin/env bash
# Times the built program's `bulk 7 COUNT` for 1,000 and 10,000 messages: two whole ends of four layers over a line that loses and
# repeats. Prints what was counted, seconds of processor time and memory; the cost is to grow with COUNT. Nothing is asserted.
set -u
cd "$(dirname "$0")/.." || exit 1
program=$PWD/crates/euroradio/out/euroradio
rm -f "$program"
(cd crates/euroradio && rt run > /dev/null 2>&1)
[ -x "$program" ] || { echo "the program was not built"; exit 1; }
command -v python3 > /dev/null || { echo "python3 is wanted, to measure"; exit 0; }

first=0
for count in 1000 10000; do
  "$program" bulk 7 "$count"
  read -r seconds memory status <<< "$(python3 bench/measure.py "$program" bulk 7 "$count")"
  printf 'bulk 7 %-6s %6s s %5s MiB, status %s\n' "$count" "$seconds" "$memory" "$status"
  [ "$count" = 1000 ] && first=$seconds
done
awk -v whole="$seconds" -v tenth="$first" 'BEGIN { if (tenth > 0) printf "ten times as many take %.2f times as much\n", whole / tenth }'
