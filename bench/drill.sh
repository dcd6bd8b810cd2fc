#!/usr/bin/env bash
# Times the built program on a drill of 16 MiB (60,000 sends and as many passes) and on one a quarter as long, and tells the ratio of the
# two times and the most memory that the program took: a drill's cost is to grow with its steps and not with their square.
# Then a file of 16,777,216 octets with as many steps as it can have, which is read, and one octet more, which is refused.
set -u
cd "$(dirname "$0")/.." || exit 1
program=$PWD/crates/euroradio/out/euroradio
rm -f "$program"
(cd crates/euroradio && rt run > /dev/null 2>&1)
[ -x "$program" ] || { echo "the program was not built"; exit 1; }
command -v python3 > /dev/null || { echo "python3 is wanted, to measure memory"; exit 0; }
work=$(mktemp -d)
trap 'rm -rf "$work"' EXIT

# A drill of so many sends, each of a message of its own, each passed at once.
drill() {
  printf 'drill 1 safe\n'
  key=0123456789abcdef23456789abcdef01456789abcdef0123
  printf 'fixed 1 5 9 %s %s\n' "$key" "$key"
  awk -v count="$1" 'BEGIN { for (i = 0; i < count; i++) printf "send 1 e %0260x\npass 1 e\n", i }'
}

report() {
  read -r seconds memory status <<< "$(python3 bench/measure.py "$program" drill "$work/$1")"
  printf '%-34s %9s octets %6s s %5s MiB, status %s\n' "$2" "$(stat -c %s "$work/$1")" "$seconds" "$memory" "$status"
}

drill 15000 > "$work/quarter"
drill 60000 > "$work/whole"
report quarter "15,000 sends and passes"
quarter=$seconds
report whole "60,000 sends and passes"
whole=$seconds
awk -v whole="$whole" -v quarter="$quarter" 'BEGIN { if (quarter > 0) printf "four times as long takes %.2f times as much\n", whole / quarter }'

# Exactly 16,777,216 octets: a header, one link, and passes of nothing, the shortest steps; the last line is a comment that fills up.
{
  drill 0
  awk 'BEGIN { for (i = 0; i < 1864000; i++) print "pass 1 e" }'
} > "$work/most"
fill=$((16777216 - $(stat -c %s "$work/most")))
{ printf '#'; head -c $((fill - 1)) /dev/zero | tr '\0' 'x'; } >> "$work/most"
report most "a file as long as may be"
cp "$work/most" "$work/long"
printf 'x' >> "$work/long"
report long "one octet more"
"$program" drill "$work/long" | head -1
