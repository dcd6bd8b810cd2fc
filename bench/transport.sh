#!/usr/bin/env bash
# Measures two sides of a transport connection in one process: bash bench/transport.sh
# For several TPDU sizes and lengths of messages it prints how many messages a second went from one side's user to
# the other's, each acknowledged, in processor time. It builds the program anew, and asserts nothing.
set -eu
cd "$(dirname "$0")/.."
command -v rt > /dev/null || { echo "transport.sh: there is no rt to build the program with; nothing is measured"; exit 0; }
program=$PWD/crates/bench/out/bench
rm -f "$program"
log=$(mktemp)
trap 'rm -f "$log"' EXIT
if ! (cd crates/bench && rt run -- transport 1 1 128) > "$log" 2>&1; then
  cat "$log"
  exit 1
fi
export TIMEFORMAT=%U
for words in "128 1" "128 123" "128 1032" "1024 1" "1024 123" "1024 1032"; do
  read -r size octets <<< "$words"
  count=$((200000000 / (octets + 200)))
  seconds=$( { time "$program" transport "$count" "$octets" "$size" > /dev/null; } 2>&1 )
  awk -v count="$count" -v octets="$octets" -v size="$size" -v seconds="$seconds" 'BEGIN {
    if (seconds > 0)
      printf "size %4d, %4d octets: %9.0f messages and %6.1f MiB of them a second\n", size, octets, count / seconds, count * octets / seconds / 1048576
  }'
done
