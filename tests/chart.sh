#!/usr/bin/env bash
# tools/chart: the charts of three drills of examples/ beside their files, of a drill's text by itself, of the recorded session, of what a relay printed and
# of a tap are compared with those under tests/chart/; steps are held against what each step prints; then bad input, 10,000 frames, and the page. Takes the built
# program as it is, or the one that PROGRAM names. `tests/chart.sh --store` writes the charts anew, to be read before they are committed.
# Closes with 'N passed, M failed'.
set -u
[ -n "${PROGRAM:-}" ] && PROGRAM=$(realpath "$PROGRAM")
cd "$(dirname "$0")/.." || exit 1
program=${PROGRAM:-$PWD/crates/euroradio/out/euroradio}
stored=$PWD/tests/chart
[ -x "$program" ] || { echo "the program was not built"; echo "0 passed, 1 failed"; exit 1; }
passed=0
failed=0

# Counts what was tried: $1 its name, $2 what was got, $3 what is wanted.
judge() {
  if [ "$2" = "$3" ]; then
    passed=$((passed + 1))
  else
    failed=$((failed + 1))
    echo "$1: got"
    echo "$2" | cut -c1-300
    echo "wanted"
    echo "$3" | cut -c1-300
  fi
}

work=$(mktemp -d)
trap 'rm -rf "$work"' EXIT

# The charts in the folder $2 are those stored under the name $1.
compare() {
  [ "${store:-}" = yes ] && { rm -f "$stored/$1"-*.svg; for chart in "$2"/*.svg; do cp "$chart" "$stored/$1-$(basename "$chart")"; done; }
  judge "the charts of $1" "$(cd "$2" && ls)" "$(cd "$stored" && printf '%s\n' "$1"-*.svg | sed "s/^$1-//")"
  for chart in "$2"/*.svg; do
    if cmp -s "$chart" "$stored/$1-$(basename "$chart")"; then
      passed=$((passed + 1))
    else
      failed=$((failed + 1))
      echo "$1, $(basename "$chart"):"
      diff "$chart" "$stored/$1-$(basename "$chart")" | head -6 | cut -c1-300
    fi
  done
}
[ "${1:-}" = --store ] && store=yes

for name in whole-session lossy-session releases-of-each-kind; do
  # a copy whose frames are shown
  grep -v '^set show' "examples/$name.drill" | sed 's/^drill 1 full$/&\nset show 1/' > "$work/$name.drill"
  "$program" drill "$work/$name.drill" > "$work/$name.txt"
  told=$(tools/chart --drill "$work/$name.drill" --folder "$work/$name" < "$work/$name.txt" 2>&1 > "$work/names")
  judge "what is told of $name" "$told" ""
  compare "$name" "$work/$name"
done

grep '^4 ' "$work/releases-of-each-kind.txt" > "$work/text-alone.txt"
tools/chart --folder "$work/alone" < "$work/text-alone.txt" > "$work/names"
judge "the name of a chart" "$(cat "$work/names")" "$work/alone/link-4.svg"
compare text-alone "$work/alone"
tools/chart --folder "$work/trace" < examples/recorded-session.trace > "$work/names"
compare recorded-session "$work/trace"
# what a relay printed: a frame that is lost, one that is late, one that comes twice, one that is altered, and one that is put before another; and a whole call
told=$(tools/chart --folder "$work/relay-text" tests/chart/relay-text.printed 2>&1 > "$work/names")
judge "what is told of what a relay printed" "$told" "line 17: a frame that isn't closed, not drawn"
compare relay-text "$work/relay-text"
tools/chart --folder "$work/relayed-call" examples/relayed-call.printed > "$work/names"
compare relayed-call "$work/relayed-call"
# a tap in which a frame is cut in two, a check sequence is wrong, and two frames share a flag
cat > "$work/tap" << 'TEXT'
tap 1
link 1 5 9 1000
octets 1 e 7e013f
octets 1 e ebdf7e
octets 1 r 7e017383577e
octets 1 e 7e0100010009ef0000000120c00107420000050101020304050607ff08f7007e
octets 1 e 0100010009ef0000000120c0010742000005010102030405060708f7007e
TEXT
tools/chart --folder "$work/tapped" < "$work/tap" > "$work/names"
compare tap "$work/tapped"

# Which step printed which line.
rows=$(printf 'tests/rows/%s/scenario ' hostile-wires-modulo-8 hostile-wires-modulo-128 sixteen-messages-wait sixteen-payloads-wait \
  set-up-under-repeats lost-frame-go-back window-of-1 rnr-and-t1 hostile-selective-wires-modulo-8 hostile-selective-wires-modulo-128 \
  selective-lost-and-repeated-frames)
# shellcheck disable=SC2086
steps=$(python3 tests/chart/followed-steps.py "$program" examples/*.drill $rows)
judge "the steps of drills" "$(echo "$steps" | sed -E 's/^[0-9]{2,} drills, [0-9]{4,} steps$/all/')" "all"

# Bad input: each is named with its line, and the rest is drawn.
cat > "$work/bad" << 'TEXT'
1 e frame 7e013febdf7e
1 r frame 7e017383577
1 e frame 7e013feadf7e
1 q frame 00
2 e frame 3f
1 e connected 9
2 r frame 7e01738357
TEXT
told=$(tools/chart --folder "$work/bad-charts" < "$work/bad" 2>&1 > "$work/names"; echo "status $?")
judge "bad lines" "$told" "line 2: an odd number of digits: 7e017383577
line 3: a frame that is none: bad check sequence
line 4: no side, e or r: q
line 5: a frame that is none: not one frame from flag to flag
line 7: a frame that is none: not one frame from flag to flag
status 1"
judge "frames that are drawn beside them" "$(grep -c 'class="frame' "$work/bad-charts/link-1.svg") $(grep -c 'class="frame' "$work/bad-charts/link-2.svg")" "2 2"
judge "a text that is none" "$(echo 'a letter' | tools/chart 2>&1; echo "status $?")" "line 1: no line of a drill's text, a trace, a tap or what a relay prints: a; nothing behind it is read
status 1"
head -5 "$work/lossy-session.txt" > "$work/cut"
told=$(tools/chart --drill "$work/lossy-session.drill" 1 < "$work/cut" 2>&1 > "$work/cut.svg")
judge "a text that is cut" "$told" "line 5: the text ends, and the drill file goes on with its line 11"
judge "its frames" "$(grep -c 'class="frame' "$work/cut.svg")" "5"
sed 's/^repeat 1 e/repeet 1 e/' "$work/lossy-session.drill" > "$work/wrong.drill"
told=$(tools/chart --drill "$work/wrong.drill" 1 < "$work/lossy-session.txt" 2>&1 > "$work/wrong.svg")
judge "a drill file with a bad line" "$(echo "$told" | head -1)" "$work/wrong.drill: line 12: no step of a drill: repeet"
judge "and the text that doesn't fit it" "$(echo "$told" | sed -n 2p)" "line 18: no step of the drill file prints it; drawn where the text has it"
judge "words that are wrong" "$(tools/chart --drill "$work/none" < "$work/cut" 2>&1 | tail -1)" "chart: $work/none: No such file or directory"

# 10,000 frames, folded and not, beside the file and alone: below a minute. Twice as many take less than three times the memory.
for count in 2500 5000; do
  python3 tests/chart/many-frames.py "$count" > "$work/$count.drill"
  "$program" drill "$work/$count.drill" > "$work/$count.txt"
done
measured() {
  python3 tests/chart/measured.py "$work/$1.txt" "$work/$1.$2" tools/chart "${@:3}"
}
read -r folded_seconds _ <<< "$(measured 2500 folded --drill "$work/2500.drill" 1)"
read -r alone_seconds _ <<< "$(measured 2500 alone --fold 0 1)"
read -r page_seconds page_size <<< "$(measured 2500 html --fold 0 --drill "$work/2500.drill" --html)"
read -r _ twice_size <<< "$(measured 5000 html --fold 0 --drill "$work/5000.drill" --html)"
judge "10,000 frames in below a minute" "$((folded_seconds < 60)) $((alone_seconds < 60)) $((page_seconds < 60))" "1 1 1"
judge "memory of twice as many frames" "$((twice_size < 3 * page_size))" "1"
judge "frames drawn without folding" "$(grep -c 'class="frame' "$work/2500.alone")" "$(grep -c ' frame ' "$work/2500.txt")"
judge "the fold" "$(grep -o '12,[0-9]* rows like those around: [^<]*' "$work/2500.folded")" \
  "12,490 rows like those around: 4,996 frames of the engine and 4,996 frames of the RBC, lines 22 to 20004"

# The page: by itself, and every frame is found in it, folded or not.
tools/chart --html --drill "$work/releases-of-each-kind.drill" < "$work/releases-of-each-kind.txt" > "$work/page.html"
judge "the page" "$(python3 tests/chart/page-is-whole.py "$work/page.html" "$work/releases-of-each-kind.txt")" \
  "$(grep -c ' frame ' "$work/releases-of-each-kind.txt") frames"
measured 2500 folded-page --html > "$work/names"
judge "a page with a fold" "$(python3 tests/chart/page-is-whole.py "$work/2500.folded-page" "$work/2500.txt")" "$(grep -c ' frame ' "$work/2500.txt") frames"
browser=$(command -v chromium || command -v chromium-browser || command -v google-chrome)
if [ -n "$browser" ]; then
  found=$(timeout 60 "$browser" --headless --no-sandbox --disable-gpu --user-data-dir="$work/profile" --dump-dom \
    "file://$work/page.html?octets=04%20F0%2000%2001%2085" 2> /dev/null | grep -o 'id="answer">[^<]*')
  judge "the search in a browser" "$found" 'id="answer">1 frame'
fi

echo "$passed passed, $failed failed"
[ "$failed" -eq 0 ]
