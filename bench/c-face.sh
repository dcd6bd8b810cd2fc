#!/usr/bin/env bash
# What the library for C costs beside the same in Rattle: bash bench/c-face.sh
# Two ends wired to each other, by bench/c_face.c and by the crate bench, which do the same calls and must print the same line: messages of 24,
# 114 and 1,023 octets, both ends, their acknowledgements and takes. The two run in turns, nine times each; the best of each is told in
# microseconds of processor time a message, and the ratio. A message of 24 octets may cost at most 1.1 times what it does in Rattle: the status is 1
# where it costs more. Then what making and freeing an end costs. LIBRARY names a library that is built already, BENCH a program of that crate.
# Wants `rt`, a C compiler and python3; says so, and ends well, where one is missing. Run it while little else runs.
set -eu
cd "$(dirname "$0")/.."
compiler=${CC:-cc}
for tool in rt python3 "$compiler"; do
  command -v "$tool" > /dev/null || { echo "c-face.sh: $tool is wanted; nothing is measured"; exit 0; }
done
work=$(mktemp -d)
trap 'rm -rf "$work"' EXIT

build() {
  (cd "crates/$1" && shift && "$@") > "$work/log" 2>&1 || { cat "$work/log"; exit 1; }
}

library=${LIBRARY:-}
if [ -z "$library" ]; then
  build er_end_c rt lib
  library=$PWD/crates/er_end_c/out/liber_end_c.a
fi
rattle=${BENCH:-}
if [ -z "$rattle" ]; then
  rattle=$PWD/crates/bench/out/bench
  rm -f "$rattle"
  build bench rt run -- ends 24 8 1
fi
"$compiler" -std=c99 -O2 -Wall -Wextra -Iinclude -o "$work/c_face" bench/c_face.c memory/euroradio_heap.c "$library"

python3 - "$rattle" "$work/c_face" << 'PY'
import os, resource, subprocess, sys
rattle, face = sys.argv[1:]

def run(program, words):
    before = resource.getrusage(resource.RUSAGE_CHILDREN)
    text = subprocess.run(program + [str(word) for word in words], stdout=subprocess.PIPE, check=True).stdout.decode()
    after = resource.getrusage(resource.RUSAGE_CHILDREN)
    return after.ru_utime + after.ru_stime - before.ru_utime - before.ru_stime, text

def both(words):
    """The least seconds of each, and the line that both print."""
    best, lines = [9e9, 9e9], set()
    for _ in range(9):
        for at, program in enumerate(([rattle, "ends"], [face])):
            seconds, text = run(program, words)
            best[at] = min(best[at], seconds)
            lines.add(text)
    if len(lines) != 1:
        sys.exit(f"the two differ at {words}: {lines}")
    return best, dict(zip(text.split()[0::2], map(int, text.split()[1::2])))

print(f"load of the machine: {os.getloadavg()[0]:.1f} on {os.cpu_count()} processors")
status = 0
for words in ((24, 10000, 20, 128, 8, 7), (114, 10000, 10, 128, 8, 7), (1023, 2000, 10, 128, 8, 7), (1023, 2000, 10, 1024, 8, 7), (24, 10000, 20, 128, 128, 31)):
    best, tally = both(words)
    each = [seconds / tally["taken"] * 1e6 for seconds in best]
    ratio = each[1] / each[0]
    judged = ""
    if words[0] == 24:
        judged = ", within 1.1" if ratio <= 1.1 else ", ABOVE 1.1"
        status |= ratio > 1.1
    print(f"{words[0]:5} octets, TPDU size {words[3]:4}, modulo {words[4]:3}: {each[0]:6.2f} us in Rattle, {each[1]:6.2f} us in C, {ratio:.3f} times{judged}")
best, tally = both((24, 0, 20000))
each = [seconds / tally["connected"] * 1e6 for seconds in best]
print(f"an end made, connected and freed: {each[0]:6.2f} us in Rattle, {each[1]:6.2f} us in C")
sys.exit(status)
PY
