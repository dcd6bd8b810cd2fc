#!/usr/bin/env bash
# Times the built program's `audit` of taps of 16,777,216 octets, made of what drills print, beside the MACs of their messages alone, as cbc_mac's library
# takes for as many texts of that length: one link with messages of 1,000 octets and of 114, and 64 links with a 64th as many messages of 1,000 each. And the
# same taps without the frame that opens the link, of which nothing is heard: what the reading of the text and of the frames takes. Processor time, the best
# of five runs, and the most memory; the tap itself is held, and memory is not to grow with the streams. PROGRAM names another program than the built
# one. Nothing is asserted.
set -u
cd "$(dirname "$0")/.." || exit 1
program=${PROGRAM:-}
if [ -z "$program" ]; then
  program=$PWD/crates/euroradio/out/euroradio
  rm -f "$program"
  (cd crates/euroradio && rt run > /dev/null 2>&1)
fi
[ -x "$program" ] || { echo "the program was not built"; exit 1; }
command -v python3 > /dev/null || { echo "python3 is wanted, to measure"; exit 0; }
work=$(mktemp -d)
trap 'rm -rf "$work"' EXIT

mac=none
compiler=${CC:-cc}
if command -v "$compiler" > /dev/null; then
  (cd crates/bench_c && rt lib > "$work/log" 2>&1) || { cat "$work/log"; exit 1; }
  "$compiler" -O2 -Wall -Wextra -o "$work/mac" bench/stack_mac.c crates/bench_c/out/libbench_c.a && mac=$work/mac
fi

python3 - "$program" "$mac" "$work" << 'PY'
import os, subprocess, sys
program, mac, work = sys.argv[1:]
MOST = 16777216
KEY = "0123456789abcdef23456789abcdef01456789abcdef0123"

def drilled(links, messages, length):
    """The lines of octets of a tap: what the ends of a drill send, as many messages on each link, each taken as it comes."""
    lines = ["drill 1 full", "set show 1", "set size 1024"]
    for link in range(1, links + 1):
        lines += [f"link {link} 5 9 {KEY} {KEY} {link:016x} {link + 99:016x}", f"drain {link} 40"]
        for number in range(messages):
            text = bytes((number * 7 + place * 13) % 256 for place in range(length)).hex()
            lines += [f"send {link} e {text}", f"drain {link} 40", f"take {link} r", f"drain {link} 40"]
    with open(work + "/drill", "w") as out:
        out.write("\n".join(lines) + "\n")
    run = subprocess.run([program, "drill", work + "/drill"], stdout=subprocess.PIPE, check=True)
    frames = (line.split(" ") for line in run.stdout.decode().split("\n") if " frame " in line)
    return [f"octets {words[0]} {words[1]} {words[3]}\n" for words in frames]

def written(name, links, lines):
    """Writes the tap, a comment behind it, so that it has all the octets that a tap may have."""
    text = "tap 1\n" + "".join(f"link {link} 5 9 0\n" for link in range(1, links + 1)) + "".join(lines)
    assert len(text) < MOST, (name, len(text))
    with open(f"{work}/{name}", "w") as out:
        out.write(text + "#" * (MOST - len(text)))

def measured(name):
    """Seconds and MiB of the best of five runs, and how many DTs were good."""
    runs = []
    for _ in range(5):
        told = subprocess.run([sys.executable, "bench/measure.py", program, "audit", work + "/keys", f"{work}/{name}"], stdout=subprocess.PIPE, check=True)
        seconds, memory, status = told.stdout.decode().split()
        assert status == "0", status
        runs.append((float(seconds), round(float(memory))))
    run = subprocess.run([program, "audit", work + "/keys", f"{work}/{name}"], stdout=subprocess.PIPE, check=True)
    return min(runs)[0], max(memory for _, memory in runs), run.stdout.count(b" dt good ")

def alone(length, count):
    """Seconds of the MACs: a sealed text has two octets of a length, three of the receiver's number, one of the kind, and the message."""
    return float(subprocess.run([mac, str(length + 6), str(count)], stdout=subprocess.PIPE, check=True).stdout)

with open(work + "/keys", "w") as out:
    out.write(f'version = 1\n[[key]]\nengine = 5\nrbc = 9\nkmac = "{KEY}"\n')
print(f"load of the machine: {os.getloadavg()[0]:.1f} on {os.cpu_count()} processors")
for links, length in ((1, 1000), (1, 114), (64, 1000)):
    few = [sum(map(len, drilled(1, count, length))) for count in (20, 120)]
    each = (few[1] - few[0]) / 100
    count = int((MOST - 2000 - links * (few[0] - 20 * each + 20)) / each / links)
    lines = drilled(links, count, length)
    written("tap", links, lines)
    written("deaf", links, [line for line in lines if not line.endswith(" e 7e013febdf7e\n")])
    seconds, memory, good = measured("tap")
    deaf, deaf_memory, heard = measured("deaf")
    assert (good, heard) == (links * count, 0), (good, heard)
    part = ""
    if mac != "none":
        part = f", {seconds / alone(length, good):.2f} times its MACs alone"
    print(f"{links:2} links, {good:6} messages of {length:4} octets: {seconds:.2f} s and {memory} MiB{part}; where nothing is heard {deaf:.2f} s and {deaf_memory} MiB")
if mac == "none":
    print("no C compiler: the MAC alone was not measured")
PY
