#!/usr/bin/env bash
# Times the built program's `replay` of a trace of 16 MiB and of one a quarter as long: first of short events (a set-up frame each, which is
# answered), then of events as long as may be (4,096 octets, 682 set-up frames). Prints seconds of processor time and memory; the cost is to
# grow with the trace. PROGRAM names another program than the built one, and then nothing is built; one that is built stays. Nothing is asserted.
set -u
[ -n "${PROGRAM:-}" ] && PROGRAM=$(realpath "$PROGRAM")
cd "$(dirname "$0")/.." || exit 1
program=${PROGRAM:-$PWD/crates/euroradio/out/euroradio}
[ -n "${PROGRAM:-}" ] || (cd crates/euroradio && rt run > /dev/null 2>&1)
[ -x "$program" ] || { echo "the program was not built"; exit 1; }
command -v python3 > /dev/null || { echo "python3 is wanted, to measure"; exit 0; }
work=$(mktemp -d)
trap 'rm -rf "$work"' EXIT
printf 'version = 1\n' > "$work/keys"

# A trace of one answering end with so many events, each of so many set-up frames.
trace() {
  awk -v events="$1" -v frames="$2" 'BEGIN {
    print "trace 1 7 15 128 1000 5 40000"
    print "> 0 1 answer 9 0000000000000001"
    for (i = 0; i < frames; i++) piece = piece "7e013febdf7e"
    for (i = 0; i < events; i++) print "> 0 1 octets " piece
  }'
}

report() {
  read -r seconds memory status <<< "$(python3 bench/measure.py "$program" replay "$work/keys" "$work/$1")"
  printf '%-30s %9s octets %6s s %5s MiB, status %s\n' "$2" "$(stat -c %s "$work/$1")" "$seconds" "$memory" "$status"
}

trace 160000 1 > "$work/short_quarter"
trace 640000 1 > "$work/short"
trace 511 682 > "$work/long_quarter"
trace 2045 682 > "$work/long"
report short_quarter "160,000 events of one frame"
quarter=$seconds
report short "640,000 events of one frame"
awk -v whole="$seconds" -v quarter="$quarter" 'BEGIN { if (quarter > 0) printf "four times as long takes %.2f times as much\n", whole / quarter }'
report long_quarter "511 events of 682 frames"
quarter=$seconds
report long "2,045 events of 682 frames"
awk -v whole="$seconds" -v quarter="$quarter" 'BEGIN { if (quarter > 0) printf "four times as long takes %.2f times as much\n", whole / quarter }'
