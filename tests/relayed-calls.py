"""Calls through a relay with random scripts: relayed-calls.py PROGRAM [COUNT [SEED]], for relayed-calls.sh beside it."""
import concurrent.futures
import os
import random
import re
import subprocess
import sys
import tempfile
import time
from dataclasses import dataclass

sys.dont_write_bytecode = True
TOP = os.path.dirname(os.path.dirname(os.path.abspath(__file__)))

import relay_model  # noqa: E402
from serving import KEYS, REPORTS, events_of, free_ports, is_listened_at, is_train  # noqa: E402

COUNT, SEED, AT_ONCE = 100, 1, 20
MOST_SECONDS = 60
# Of these a session recovers: no script loses or delays so much that N2 is spent.
GENTLE = ("lose", "repeat", "delay")
MOST_LINES, MOST_DELAY = 4, 700
KINDS = {"e": ("any", "any", "i", "rr", "rej", "sabm", "cr", "dt", "dt", "ak", "dr", "disc", "bad"), "r": ("any", "any", "i", "rr", "rej", "ua", "cc", "dt", "dt", "ak", "other")}
# What may be put: no octet, flags, noise, and whole frames of the link.
FRAMES = [bytes.fromhex(text) for text in ("7e", "7e7e7e", "7e013febdf7e", "7e017383577e", "7e0153a1be7e", "7e031fe9d97e", "7e7d7e", "7e0101", "")]


def random_line(draw, is_gentle):
    """A line of a script."""
    change = draw.choice(GENTLE if is_gentle else (*relay_model.CHANGES, "alter", "put"))
    noise = bytes(draw.randrange(256) for _ in range(draw.randrange(60)))
    arguments = {"alter": (draw.choice((1, 2, 3, 4, 5, 9, 20, 4000)), bytes([1 << draw.randrange(8)])), "put": (draw.choice([*FRAMES, noise, noise]),),
                 "delay": (draw.choice((0, 5, 50, MOST_DELAY)),)}
    side = draw.choice("er")
    kind = draw.choice(KINDS[side])
    number = draw.choice((1, 2, 3, 4, 6, 9) if kind in ("any", "i") else (1, 1, 2, 3))
    return relay_model.Line(change, side, kind, number, arguments.get(change, ()))


def random_script(draw, is_gentle):
    return [random_line(draw, is_gentle) for _ in range(draw.randrange(1, MOST_LINES + 1))]


@dataclass
class Call:
    """A call through a relay: what the relay printed, both recordings, and the audit of what the ends got."""

    printed: str
    call: str
    serve: str
    audit: str
    status: int


def octets_in(recording, pattern):
    """The octets of these lines of a recording, joined."""
    return bytes.fromhex("".join(re.findall(pattern, recording, re.M)))


class Runner:
    def __init__(self, program, work):
        self.program, self.work = program, work
        self.keys = os.path.join(work, "keys")
        with open(self.keys, "w") as file:
            file.write(KEYS)

    def run(self, number, script):
        """A call to a `serve` through a relay with this script."""
        folder = os.path.join(self.work, str(number))
        os.mkdir(folder)
        with open(os.path.join(folder, "script"), "w") as file:
            file.write("relay 1\n" + "".join(f"{line}\n" for line in script))
        listen, dial = free_ports(2)
        running = [self.begun(folder, "serve", self.keys, f"127.0.0.1:{dial}", "9", "-")]
        is_listened_at(dial)
        running.append(self.begun(folder, "relay", os.path.join(folder, "script"), f"127.0.0.1:{listen}", f"127.0.0.1:{dial}", "-"))
        is_listened_at(listen)
        call = self.begun(folder, "call", self.keys, f"127.0.0.1:{listen}", "5", "9", "-")
        try:
            status = call.wait(MOST_SECONDS)
        except subprocess.TimeoutExpired:
            call.kill()
            status = call.wait()
        last = time.monotonic() + 20
        while " closed\n" not in self.read(folder, "relay") and time.monotonic() < last:
            time.sleep(0.05)
        # The end that was dialled hears of its end too.
        while not re.search(r"^< 1 released ", self.read(folder, "serve"), re.M) and time.monotonic() < last:
            time.sleep(0.05)
        for process in running:
            process.terminate()
            process.wait()
        return Call(self.read(folder, "relay"), self.read(folder, "call"), self.read(folder, "serve"), self.audit(folder), status)

    def begun(self, folder, command, *words):
        with open(os.path.join(folder, command), "wb") as out, open(os.path.join(folder, f"{command}.told"), "wb") as told:
            return subprocess.Popen([self.program, command, *words], stdin=subprocess.DEVNULL, stdout=out, stderr=told)

    def read(self, folder, name):
        with open(os.path.join(folder, name)) as file:
            return file.read()

    def audit(self, folder):
        """The audit of the tap of what the relay gave."""
        words = [sys.executable, os.path.join(TOP, "tools/tap"), "--engine", "5", "--rbc", "9", os.path.join(folder, "relay")]
        tap = os.path.join(folder, "tap")
        with open(tap, "wb") as out:
            subprocess.run(words, stdout=out, stderr=subprocess.DEVNULL, check=False)
        return subprocess.run([self.program, "audit", self.keys, tap], capture_output=True, text=True, check=False).stdout


def faults_of(call, script):
    """What isn't as it must be of a call."""
    printed = relay_model.Printed(script, call.printed)
    yield from printed.faults
    if len(printed.connections) != 1:
        yield f"{len(printed.connections)} connections"
        return
    told = printed.connections[1]
    for side, own, other in (("e", call.call, call.serve), ("r", call.serve, call.call)):
        came, given = (b"".join(octets for _, octets in told_of[side]) for told_of in (told.came, told.given))
        sent, got = octets_in(own, r"^< 1 octets ([0-9a-f]+)$"), octets_in(other, r"^> \d+ 1 octets ([0-9a-f]+)$")
        if not sent.startswith(came):
            yield f"what came from {side} isn't what it sent"
        if not given.startswith(got):
            yield f"what the other end of {side} got isn't what was given"
        if given != relay_model.carried(script, side, came)[:len(given)]:
            yield f"what was given of {side} isn't the function of what came"
        good = re.findall(rf"^1 {side} dt good ([0-9a-f]*)$", call.audit, re.M)
        accepted = re.findall(r"^< 1 accepted ([0-9a-f]*)$", other, re.M)
        if accepted != good[:len(accepted)] or len(accepted) < len(good) and not re.search(r"^< 1 released ", other, re.M):
            yield f"the audit of {side} has {len(good)} messages, and {len(accepted)} were accepted"


def faults_of_gentle(call):
    """Of a line that loses, repeats and delays alone: each echo comes, in order."""
    if call.status != 0 or not is_train(events_of(call.call, "1")):
        yield f"status {call.status}, {events_of(call.call, '1')}"
    if re.findall(r"^< 1 accepted ([0-9a-f]*)$", call.serve, re.M) != REPORTS:
        yield "the centre accepted other messages"


def main():
    program = os.path.abspath(sys.argv[1])
    count, seed = [int(word) for word in sys.argv[2:4]] + [COUNT, SEED][len(sys.argv[2:4]):]
    draw = random.Random(seed)
    scripts = [random_script(draw, number % 2 == 0) for number in range(count)]
    passed = failed = used = 0
    with tempfile.TemporaryDirectory(prefix="relayed-calls-") as work, concurrent.futures.ThreadPoolExecutor(AT_ONCE) as lanes:
        runner = Runner(program, work)
        for number, (script, call) in enumerate(zip(scripts, lanes.map(runner.run, range(count), scripts))):
            faults = list(faults_of(call, script))
            if all(line.change in GENTLE for line in script):
                faults += faults_of_gentle(call)
            used += len(relay_model.Printed(script, call.printed).used())
            if faults:
                failed += 1
                print(f"script {number} of seed {seed}: {' / '.join(map(str, script))}:\n  " + "\n  ".join(faults[:4]))
            else:
                passed += 1
    lines = sum(map(len, scripts))
    if used < lines // 3:
        failed += 1
        print(f"of {lines} lines of scripts {used} met a unit")
    print(f"{passed} passed, {failed} failed")
    return 1 if failed or not passed else 0


if __name__ == "__main__":
    sys.exit(main())
