"""For turns.sh beside it: turns.py OLD NEW [OLD_BENCH NEW_BENCH]."""
import datetime
import os
import socket
import statistics
import subprocess
import sys
import tempfile
import time

sys.dont_write_bytecode = True
TOP = os.path.join(os.path.dirname(os.path.abspath(__file__)), "..")
sys.path.insert(0, os.path.join(TOP, "tests"))
from minutes import speed  # noqa: E402
from serving import free_port  # noqa: E402

OLD, NEW = (os.path.abspath(program) for program in sys.argv[1:3])
ENDS = [os.path.abspath(program) for program in sys.argv[3:]]
PAIRS = int(os.environ.get("PAIRS", "0"))
MINUTES = float(os.environ.get("MINUTES", "5"))
LEAST_PAIRS = 5
KEY = "0123456789abcdef23456789abcdef01456789abcdef0123"
KEYS = f'version = 1\n\n[[key]]\nengine = 5\nrbc = 9\nkmac = "{KEY}"\n'
SET_UP_FRAMES = 682
CALLS = 200


def safe_drill():
    """Messages at level safe, each passed at once."""
    steps = "".join(f"send 1 e {n:0228x}\npass 1 e\n" for n in range(12000))
    return f"drill 1 safe\nfixed 1 5 9 {KEY} {KEY}\n{steps}"


def full_drill():
    """Messages of 114 octets over all layers, ten at a time, each taken."""
    ten = lambda n: "".join(f"send 1 e {n * 10 + k:0228x}\n" for k in range(10)) + "drain 1 1000\n" + "take 1 r\n" * 10 + "drain 1 1000\n"  # noqa: E731
    steps = "".join(ten(n) for n in range(1500))
    return f"drill 1 full\nset credit 15\nset size 1024\nset show 1\nlink 1 5 9 {KEY} {KEY} 0102030405060708 1122334455667788\ndrain 1 1000\n{steps}"


def trace():
    """Events of as many octets as may be at an end that answers."""
    events = f"> 0 1 octets {'7e013febdf7e' * SET_UP_FRAMES}\n" * 1500
    return f"trace 1 7 15 128 1000 5 40000\n> 0 1 answer 9 0000000000000001\n{events}"


def processor_seconds(words, out):
    """The processor time of a run that ends well."""
    with open(out, "wb") as file:
        process = subprocess.Popen(words, stdin=subprocess.DEVNULL, stdout=file, stderr=subprocess.DEVNULL)
        _, status, usage = os.wait4(process.pid, 0)
    if status:
        sys.exit(f"turns: {words[0]} {words[1]}: status {os.waitstatus_to_exitcode(status)}")
    return usage.ru_utime + usage.ru_stime


def listens(port):
    for _ in range(500):
        with socket.socket() as it:
            if it.connect_ex(("127.0.0.1", port)) == 0:
                return True
        time.sleep(0.01)
    return False


def calls_seconds(program, folder):
    """A server's processor time for so many calls, one after the other."""
    port, keys = free_port(), os.path.join(folder, "keys")
    with open(os.path.join(folder, "recording"), "wb") as file:
        server = subprocess.Popen([program, "serve", keys, f"127.0.0.1:{port}", "9", "1000000000"], stdout=file, stderr=subprocess.DEVNULL)
        if not listens(port):
            sys.exit("turns: nobody listens")
        for _ in range(CALLS):
            subprocess.run([program, "call", keys, f"127.0.0.1:{port}", "5", "9", "100000"], stdout=subprocess.DEVNULL, stderr=subprocess.DEVNULL, check=True, timeout=60)
        server.terminate()
        _, _, usage = os.wait4(server.pid, 0)
        server.returncode = 0
    return usage.ru_utime + usage.ru_stime


def carried(length):
    """Two whole ends, one of which sends messages of so many octets in ten connections."""
    return lambda program: processor_seconds([program, "ends", str(length), "10000", "10"], os.devnull)


def measures(folder):
    """The name of each measure, a function of a program that makes one run, and the two programs."""
    def file(name, text):
        path = os.path.join(folder, name)
        with open(path, "w") as it:
            it.write(text)
        return path
    keys, out = file("keys", KEYS), os.path.join(folder, "out")
    safe, full, events = file("safe.drill", safe_drill()), file("full.drill", full_drill()), file("events.trace", trace())
    processor_seconds([OLD, "drill", full], out)
    with open(out, "rb") as printed:
        made = subprocess.run([sys.executable, os.path.join(TOP, "tools", "tap"), "--engine", "5", "--rbc", "9"], stdin=printed, capture_output=True, check=True)
    tap = file("full.tap", made.stdout.decode())
    both = [
        ("drill, level safe: 12,000 messages", lambda program: processor_seconds([program, "drill", safe], out)),
        ("drill, level full: 15,000 messages", lambda program: processor_seconds([program, "drill", full], out)),
        ("bulk: 10,000 messages", lambda program: processor_seconds([program, "bulk", "7", "10000"], out)),
        ("replay: 1,500 events of 682 frames", lambda program: processor_seconds([program, "replay", keys, events], out)),
        ("audit: 15,000 messages", lambda program: processor_seconds([program, "audit", keys, tap], out)),
        (f"serve: {CALLS} calls", lambda program: calls_seconds(program, folder)),
    ]
    stack = [(f"stack: 100,000 messages of {length} octets", carried(length)) for length in (24, 114)] if ENDS else []
    return [(*each, OLD, NEW) for each in both] + [(*each, *ENDS) for each in stack]


def in_turns(table):
    """The pairs of seconds of each measure, round after round, until the time is over or there are so many."""
    pairs, begun = [[] for _ in table], time.monotonic()
    while True:
        round_begun = time.monotonic()
        for (_, run, old, new), found in zip(table, pairs):
            found.append((run(old), run(new)) if len(found) % 2 == 0 else (run(new), run(old))[::-1])
        now, count = time.monotonic(), len(pairs[0])
        if count >= PAIRS if PAIRS else count >= LEAST_PAIRS and now + (now - round_begun) > begun + 60 * MINUTES:
            return pairs


def row(name, pairs):
    old, new = (min(side) for side in zip(*pairs))
    ratios = [new / old for old, new in pairs if old > 0]
    low, middle, high = statistics.quantiles(ratios, n=4) if len(ratios) > 1 else ratios * 3
    return f"| {name} | {old * 1000:,.0f} ms | {new * 1000:,.0f} ms | {new / old:.3f} | {middle:.3f} | {low:.3f} to {high:.3f} |"


def main():
    begun, load, loop = time.monotonic(), os.getloadavg()[0], speed()
    with tempfile.TemporaryDirectory(prefix="turns-") as folder:
        table = measures(folder)
        found = in_turns(table)
    print("| What | OLD, the least | NEW, the least | NEW / OLD, by the least | at the median of the pairs | half of the pairs |\n|---|---|---|---|---|---|")
    for (name, *_), pairs in zip(table, found):
        print(row(name, pairs))
    print(f"\n{datetime.date.today()}: {len(found[0])} pairs of each in {(time.monotonic() - begun) / 60:.1f} minutes; load {load:.1f} before, {os.getloadavg()[0]:.1f} behind, "
          f"on {os.cpu_count()} processors. Ten million steps of a loop over integers take {loop:.2f} s in Python before, {speed():.2f} s behind.")


if __name__ == "__main__":
    main()
