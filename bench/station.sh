#!/bin/sh
# Two stations of the library wired to each other in one process: payloads and MiB a second of processor time, of 1,024 octets and
# of 20, with windows of 7 (modulo 8) and 31 (modulo 128), with no loss and with one frame in a hundred lost, and the most memory
# that the program took. Then stations with go-back and with selective reject side by side, over a line that loses 1, 5 and 10 frames of a
# hundred, the same ones for both. Beside it the bare speed of a plain C deframer on octets that two such stations send, and the memory of an idle
# end of a drill, station, deframer and room. Nothing is asserted. Needs `rt` and python3, for the last parts the built program and a C
# compiler; writes nothing outside the crates' out/.
set -eu
cd "$(dirname "$0")/.."
program=$PWD/crates/bench/out/bench
[ -x "$program" ] || (cd crates/bench && rt run -- go-back 20 8 7 0 1 1 >/dev/null 2>&1)
[ -x "$program" ] || { echo "the program was not built"; exit 1; }
command -v python3 >/dev/null || { echo "python3 is wanted, to measure; nothing is measured"; exit 0; }
python3 - "$program" << 'PY'
import os, resource, subprocess, sys
def run(words):
    before = resource.getrusage(resource.RUSAGE_CHILDREN)
    text = subprocess.run([sys.argv[1]] + [str(w) for w in words], stdout=subprocess.PIPE).stdout.decode().split()
    after = resource.getrusage(resource.RUSAGE_CHILDREN)
    seconds = (after.ru_utime + after.ru_stime) - (before.ru_utime + before.ru_stime)
    return dict(zip(text[::2], map(int, text[1::2]))), max(seconds, 0.001), after.ru_maxrss / 1024
for length, payloads in ((1024, 200000), (20, 2000000)):
    for modulo, window in ((8, 7), (128, 31)):
        for of_hundred in (0, 1):
            told, seconds, memory = run(("go-back", length, modulo, window, of_hundred, 1, payloads))
            print(f"{length:5} octets, window {window:2}, {told['lost']:6} frames lost: {told['taken'] / seconds:10.0f} payloads/s "
                  f"{told['taken'] * length / seconds / 1048576:7.1f} MiB/s, {memory:4.0f} MiB")

# Each end hears the other once a window. The least time of three runs in turns; all else is the same in each run.
kinds = ("go-back", "selective")
print("the frames that the sender and the receiver sent a payload, how often T1 went by in 1,000 payloads, and payloads/s:")
print(f"{'':36}" + "".join(f"| {kind:^36} " for kind in kinds))
for length, payloads in ((114, 500000), (1024, 200000)):
    for modulo, window in ((8, 4), (128, 31)):
        for of_hundred in (1, 5, 10):
            line = f"{length:5} octets, window {window:2}, {of_hundred:2} % lost "
            runs = [[run((kind, length, modulo, window, of_hundred, 1, payloads))[:2] for kind in kinds] for _ in range(3)]
            for place in range(len(kinds)):
                told, seconds = runs[0][place][0], min(each[place][1] for each in runs)
                taken = max(told["taken"], 1)
                line += (f"| {told['forth'] / taken:6.3f} {told['back'] / taken:6.3f} {1000 * told['waits'] / taken:7.2f} {taken / seconds:10.0f} "
                         f"{'' if taken >= payloads else 'not all taken'} ")
            print(line.rstrip())
PY

drill=$PWD/crates/euroradio/out/euroradio
[ -x "$drill" ] || (cd crates/euroradio && rt run >/dev/null 2>&1 || true)
[ -x "$drill" ] || { echo "euroradio was not built; the deframer and the memory aren't measured"; exit 0; }
work=$(mktemp -d)
trap 'rm -rf "$work"' EXIT

# Octets that two stations send for so many payloads of so many octets, as a file.
octets() {
  python3 - "$drill" "$1" "$2" "$work" << 'PY'
import random, subprocess, sys
drill, length, count, work = sys.argv[1], int(sys.argv[2]), int(sys.argv[3]), sys.argv[4]
random.seed(1)
steps = ["drill 1 link", "set show 1", "wire 1", "drain 1 4"]
for _ in range(count // 8):
    steps += [f"send 1 e {random.randbytes(length).hex()}" for _ in range(8)] + ["drain 1 100"]
open(work + "/scenario", "w").write("\n".join(steps) + "\n")
text = subprocess.run([drill, "drill", work + "/scenario"], stdout=subprocess.PIPE).stdout.decode()
frames = [bytes.fromhex(line.split()[3]) for line in text.splitlines() if line.split()[2:3] == ["frame"]]
open(work + "/octets", "wb").write(b"".join(frames))
PY
}

compiler=${CC:-cc}
if command -v "$compiler" >/dev/null; then
  "$compiler" -O2 -Wall -Wextra -o "$work/deframe" bench/deframe.c
  for length in 1024 20; do
    octets "$length" 4000
    printf '%5s octets a payload: ' "$length"
    "$work/deframe" "$work/octets"
  done
else
  echo "there is no C compiler; the plain deframer isn't measured"
fi

# Memory of an idle end: 64 wires against one, 126 ends more.
for window in 7 31; do
  { echo "drill 1 link"; [ "$window" = 7 ] || echo "set modulo 128"; echo "set window $window"; echo "wire 1"; } > "$work/one"
  { cat "$work/one"; for n in $(seq 2 64); do echo "wire $n"; done; } > "$work/all"
  read -r _ one _ << EOF_ONE
$(python3 bench/measure.py "$drill" drill "$work/one")
EOF_ONE
  read -r _ all _ << EOF_ALL
$(python3 bench/measure.py "$drill" drill "$work/all")
EOF_ALL
  awk -v one="$one" -v all="$all" -v window="$window" 'BEGIN { printf "an idle end, window %2d: about %.0f KiB\n", window, (all - one) * 1024 / 126 }'
done
