#!/usr/bin/env bash
# Times tools/pcap on a recording of 16 MiB and on one a quarter as long, of short events (a set-up frame each) and of events as long as may be
# (4,096 octets, 682 set-up frames), and on one frame that never closes. Prints seconds of processor time and memory; both are to grow with the
# recording. Nothing is asserted, and no program needs to be built.
set -u
cd "$(dirname "$0")/.." || exit 1
command -v python3 > /dev/null || { echo "python3 is wanted"; exit 0; }
work=$(mktemp -d)
trap 'rm -rf "$work"' EXIT

# A recording of one connection with so many events of so many pieces of octets.
recording() {
  awk -v events="$1" -v count="$2" -v octets="$3" 'BEGIN {
    print "trace 1 7 15 128 1000 5 40000"
    print "> 0 1 answer 9 0000000000000001"
    for (i = 0; i < count; i++) piece = piece octets
    for (i = 0; i < events; i++) print "> " i " 1 octets " piece
  }'
}

# Measures the recording $1, told as $2.
report() {
  read -r seconds memory status <<< "$(python3 bench/measure.py sh -c "tools/pcap < '$work/$1' 2> /dev/null")"
  printf '%-34s %9s octets %6s s %5s MiB, status %s\n' "$2" "$(stat -c %s "$work/$1")" "$seconds" "$memory" "$status"
}

for kind in "frame 1 7e013febdf7e 145000" "frames 682 7e013febdf7e 511" "unclosed 682 013febdf0101 511"; do
  read -r name count octets events <<< "$kind"
  recording "$events" "$count" "$octets" > "$work/quarter"
  report quarter "$events events of $count $name"
  quarter=$seconds
  recording $((4 * events)) "$count" "$octets" > "$work/whole"
  report whole "$((4 * events)) events of $count $name"
  awk -v whole="$seconds" -v quarter="$quarter" 'BEGIN { if (quarter > 0) printf "four times as long takes %.2f times as much\n", whole / quarter }'
done
