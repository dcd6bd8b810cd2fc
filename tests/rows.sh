#!/usr/bin/env bash
# Runs the built program on each folder of tests/rows: `args` has its words, one a line; the folder's other files lie where it
# runs; `stdout` and `status` are what it must print and end with. Each file of examples/ has such a folder, example-NAME.
# Then on a drill file of as many lines as one may have, and on one octet more.
# PROGRAM names another program than the built one, and then nothing is built. Closes with 'N passed, M failed'.
set -u
[ -n "${PROGRAM:-}" ] && PROGRAM=$(realpath "$PROGRAM")
cd "$(dirname "$0")/.." || exit 1
program=${PROGRAM:-$PWD/crates/euroradio/out/euroradio}

if [ -z "${PROGRAM:-}" ]; then
  # `rt run` proves what isn't proved yet, builds the program anew, and runs it once: with no words it answers 1.
  rm -f "$program"
  log=$(mktemp)
  (cd crates/euroradio && rt run > "$log" 2>&1)
  [ -x "$program" ] || tail -40 "$log"
  rm -f "$log"
fi
if [ ! -x "$program" ]; then
  echo "the program was not built"
  echo "0 passed, 1 failed"
  exit 1
fi

passed=0
failed=0

# Runs the program in the folder $1 on the words that follow, and compares with the status and text there.
judge() {
  local name=$1 work=$2 status
  shift 2
  (cd "$work" && timeout 120 "$program" "$@" > printed.txt 2> errors.txt)
  status=$?
  if [ "$status" = "$(cat "$work/status")" ] && cmp -s "$work/printed.txt" "$work/stdout"; then
    passed=$((passed + 1))
  else
    failed=$((failed + 1))
    echo "$name: status $status, wanted $(cat "$work/status")"
    diff "$work/printed.txt" "$work/stdout" | head -10 | cut -c1-200
    head -5 "$work/errors.txt"
  fi
}

for row in tests/rows/*/; do
  work=$(mktemp -d)
  cp -r "$row". "$work"
  case $row in */example-*) find examples -maxdepth 1 -type f -exec cp {} "$work" \; ;; esac
  mapfile -t words < "$row/args"
  judge "row $(basename "$row")" "$work" "${words[@]}"
  rm -rf "$work"
done

# Each file of examples/ has a row of its own; the folders have programs, captures and what a relay printed are read by tools, and a relay wants sockets:
# other scripts try them.
for example in examples/*; do
  [ -f "$example" ] || continue
  case $example in *.pcap | *.relay | *.printed) continue ;; esac
  name=$(basename "$example")
  if ! grep -qx "$name" "tests/rows/example-${name%.*}/args" 2> /dev/null; then
    failed=$((failed + 1))
    echo "examples/$name has no row"
  fi
done

# A drill file of so many octets, all behind the header empty lines: what it must end with and print.
lines_to() {
  local work
  work=$(mktemp -d)
  { printf 'drill 1 safe\n'; head -c "$(($1 - 13))" /dev/zero | tr '\0' '\n'; } > "$work/lines.drill"
  printf '%s' "$2" > "$work/status"
  printf '%s' "$3" > "$work/stdout"
  judge "a drill file of $1 octets" "$work" drill lines.drill
  rm -rf "$work"
}

lines_to 16777216 0 ''
lines_to 16777217 3 $'! line 0 long\n'

echo "$passed passed, $failed failed"
[ "$failed" -eq 0 ] && [ "$passed" -gt 0 ]
