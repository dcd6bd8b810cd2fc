#!/usr/bin/env bash
# Two ends of the library, an engine and a radio block centre, wired to each other in one process, every layer at work: bash bench/stack.sh
# Of messages of 24, 114 and 1,023 octets, 10,000 each: messages and octets a second of processor time, of both ends together, and of the
# set-up alone, how many a second. Each is the best of nine runs, a run of several connections one after the other (each with its set-up).
# Then where the time goes: by `perf`, where it is there and may sample, the part of each crate; what the compiler inlined counts with the
# function that it stands in, and the four layers' code that is inlined in the events with the events. And, beside it, the time that
# cbc_mac alone takes for as many texts of the same length (two MACs a message: one seals, one verifies), where there is a C compiler.
# Nothing is asserted. Wants `rt` and python3. PROGRAM names another program of crates/bench than the one that is built, and then nothing is built, and the
# time of cbc_mac alone is told only where MAC names a library of crates/bench_c. bench/picture.py draws what this script prints.
set -eu
program=${PROGRAM:+$(realpath "$PROGRAM")}
library=${MAC:+$(realpath "$MAC")}
cd "$(dirname "$0")/.."
[ -n "$program" ] || command -v rt > /dev/null || { echo "stack.sh: there is no rt to build the program with; nothing is measured"; exit 0; }
command -v python3 > /dev/null || { echo "stack.sh: python3 is wanted, to measure; nothing is measured"; exit 0; }
work=$(mktemp -d)
trap 'rm -rf "$work"' EXIT

build() {
  (cd "crates/$1" && shift && "$@") > "$work/log" 2>&1 || { cat "$work/log"; exit 1; }
}

mac=none
compiler=${CC:-cc}
if [ -z "$program" ]; then
  program=$PWD/crates/bench/out/bench
  rm -f "$program"
  build bench rt run -- ends 24 8 1
  if command -v "$compiler" > /dev/null; then
    build bench_c rt lib
    library=$PWD/crates/bench_c/out/libbench_c.a
  fi
fi
if [ -n "$library" ] && command -v "$compiler" > /dev/null; then
  "$compiler" -O2 -Wall -Wextra -o "$work/mac" bench/stack_mac.c "$library"
  mac=$work/mac
fi

python3 - "$program" "$mac" "$work" << 'PY'
import collections, datetime, os, re, resource, shutil, subprocess, sys
sys.dont_write_bytecode = True
sys.path.insert(0, "tests")
from minutes import speed
program, mac, work = sys.argv[1:]

def run(words):
    before = resource.getrusage(resource.RUSAGE_CHILDREN)
    text = subprocess.run([program, "ends"] + [str(word) for word in words], stdout=subprocess.PIPE, check=True).stdout.decode().split()
    after = resource.getrusage(resource.RUSAGE_CHILDREN)
    seconds = (after.ru_utime + after.ru_stime) - (before.ru_utime + before.ru_stime)
    return max(seconds, 1e-6), dict(zip(text[0::2], map(int, text[1::2])))

def best(words):
    return min((run(words) for _ in range(9)), key=lambda each: each[0])

def alone(length, count):
    # a sealed text: two octets of a length, three of the receiver's number, one of the kind, and the message
    return float(subprocess.run([mac, str(length + 6), str(2 * count)], stdout=subprocess.PIPE, check=True).stdout)

print(f"{datetime.date.today()}; load of the machine: {os.getloadavg()[0]:.1f} on {os.cpu_count()} processors; "
      f"ten million steps of a loop over integers take {speed():.2f} s in Python")
for length, times, size, modulo, window in ((24, 10, 128, 8, 7), (114, 10, 128, 8, 7), (1023, 2, 128, 8, 7), (1023, 2, 1024, 8, 7), (24, 10, 128, 128, 31)):
    seconds, tally = best((length, 10000, times, size, modulo, window))
    taken, octets = tally["taken"], tally["octets"]
    part = ""
    if mac != "none":
        part = f", the MAC alone {100 * alone(length, taken) / seconds:3.0f} %"
    print(f"{length:5} octets, TPDU size {size:4}, window {window:2} of modulo {modulo:3}: {taken / seconds:8.0f} messages/s {octets / seconds:11.0f} octets/s, "
          f"{seconds / taken * 1e6:6.2f} us and {tally['frames'] / taken:4.1f} frames a message{part}")
seconds, tally = best((24, 0, 2000))
print(f"the set-up alone, two ends made, connected and dropped: {tally['connected'] / 2 / seconds:8.0f} a second, {seconds / tally['connected'] * 2e6:6.2f} us each")
if mac == "none":
    print("no C compiler, or no library: the MAC alone was not measured")

def profile(words):
    record = ["perf", "record", "-q", "-e", "cpu-clock:u", "-F", "10000", "-o", work + "/perf", program, "ends"] + [str(word) for word in words]
    if shutil.which("perf") is None or subprocess.run(record, stdout=subprocess.DEVNULL, stderr=subprocess.DEVNULL).returncode != 0:
        return None
    report = ["perf", "report", "-i", work + "/perf", "--stdio", "--no-children", "--sort", "dso,symbol"]
    text = subprocess.run(report, stdout=subprocess.PIPE, stderr=subprocess.DEVNULL).stdout.decode()
    parts = collections.Counter()
    for line in text.split("\n"):
        found = re.match(r"\s*([0-9.]+)%\s+(\S+)\s+\[.\]\s+(.*)", line)
        if found:
            share, place, symbol = float(found.group(1)), found.group(2), found.group(3).strip()
            if place != os.path.basename(program):
                name = "libc " + re.sub(r".*(memset|memmove|memcpy|memcmp).*", r"\1", symbol)
            elif "::" not in symbol:
                name = "unnamed"
            elif symbol.startswith("bench::"):
                name = "the events, with what is inlined in them"
            else:
                name = symbol.split("::")[0]
            parts[name] += share
    return parts

for words in ((24, 10000, 40), (114, 10000, 20), (1023, 10000, 4), (1023, 10000, 4, 1024)):
    parts = profile(words)
    if parts is None:
        print("perf is not there, or may not sample: the parts of the layers were not measured")
        break
    size = words[3] if len(words) > 3 else 128
    print(f"{words[0]} octets, TPDU size {size}, by perf's samples: " + ", ".join(f"{name} {share:.1f} %" for name, share in parts.most_common() if share >= 0.5))
PY
