#!/usr/bin/env bash
# Times the built program's `migrate` on key files of 62,500 and of 250,000 keys, of as many pairs and of one pair at as many moments, and on files
# whose last key comes twice: what a key file costs is to grow with its keys and not with their square. Prints seconds of processor time and memory.
# Nothing is asserted.
set -u
cd "$(dirname "$0")/.." || exit 1
program=$PWD/crates/euroradio/out/euroradio
rm -f "$program"
(cd crates/euroradio && rt run > /dev/null 2>&1)
[ -x "$program" ] || { echo "the program was not built"; exit 1; }
command -v python3 > /dev/null || { echo "python3 is wanted, to measure"; exit 0; }
work=$(mktemp -d)
trap 'rm -rf "$work"' EXIT

# A key file of so many keys: of as many engines, or of one pair, whose keys hold one after the other.
pairs() {
  echo 'version = 1'
  awk -v count="$1" 'BEGIN { for (i = 0; i < count; i++) printf "[[key]]\nengine=%d\nrbc=9\nkmac=\"%048x\"\n", i * 7919 % 16777216, i + 1 }'
}
moments() {
  echo 'version = 2'
  awk -v count="$1" 'BEGIN { for (i = 0; i < count; i++) printf "[[key]]\nengine=5\nrbc=9\nkmac=\"%048x\"\nfrom=%d\nto=%d\n", i + 1, i * 10, i * 10 + 9 }'
}
# The same, with the first pair's key once more behind all others.
twice() { pairs "$1"; printf '[[key]]\nengine=0\nrbc=9\nkmac="%048x"\n' 1; }

for kind in pairs moments twice; do
  first=0
  for count in 62500 250000; do
    "$kind" "$count" > "$work/keys"
    read -r seconds memory status <<< "$(python3 bench/measure.py "$program" migrate "$work/keys")"
    printf '%-8s %7s keys %9s octets %8s s %5s MiB, status %s\n' "$kind" "$count" "$(stat -c %s "$work/keys")" "$seconds" "$memory" "$status"
    [ "$count" = 62500 ] && first=$seconds
  done
  awk -v whole="$seconds" -v quarter="$first" 'BEGIN { if (quarter > 0) printf "four times as many take %.2f times as much\n", whole / quarter }'
done
