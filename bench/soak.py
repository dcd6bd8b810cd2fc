"""For soak.sh beside it: soak.py PROGRAM MINUTES TRAINS HOSTILE."""

import collections
import concurrent.futures
import os
import random
import selectors
import signal
import socket
import struct
import subprocess
import sys
import tempfile
import time

sys.dont_write_bytecode = True
TOP = os.path.dirname(os.path.dirname(os.path.abspath(__file__)))
sys.path[:0] = [os.path.join(TOP, "tests"), os.path.join(TOP, "tools")]

from decoding import framing  # noqa: E402
from serving import KEYS, free_port, is_listened_at, parts_of, replays_to_itself  # noqa: E402
from train import Broken, Train  # noqa: E402

EVERY = 1.0
SETTLED = 10
KMAC = KEYS.split('"')[1]
TICK = os.sysconf("SC_CLK_TCK")
SABM = bytes.fromhex("7e013febdf7e")


def abort(line):
    """Closes a socket with a reset, as the system does for a peer that is killed with octets unread."""
    line.setsockopt(socket.SOL_SOCKET, socket.SO_LINGER, struct.pack("ii", 1, 0))
    line.close()


class Client:
    """A client that dials, and dials again a while after its line ended. What kind it is, says `begin`, `came` and `tick`."""

    pause = 1.0

    def __init__(self, soak):
        self.soak = soak
        self.line = None
        self.out = b""
        self.at = time.monotonic() + random.random() * 2

    def dial(self):
        self.line = socket.socket()
        self.line.setblocking(False)
        self.line.connect_ex(("127.0.0.1", self.soak.port))
        self.out = b""
        self.begin()
        self.soak.watch(self)

    def send(self, octets):
        """Octets that wait are sent as the line takes them."""
        self.out += octets
        try:
            self.out = self.out[self.line.send(self.out):]
        except BlockingIOError:
            pass
        except OSError:
            self.leave()

    def readable(self):
        try:
            octets = self.line.recv(65536)
        except BlockingIOError:
            return
        except OSError:
            octets = b""
        if octets:
            self.came(octets)
        else:
            self.leave()

    def leave(self, hard=False):
        """The line is closed, and dialled again behind a pause."""
        if self.line is None:
            return
        self.soak.forget(self)
        abort(self.line) if hard else self.line.close()
        self.line = None
        self.at = time.monotonic() + self.pause * (0.5 + random.random())

    def begin(self):
        pass

    def came(self, octets):
        pass

    def tick(self):
        pass


class Rider(Client):
    """A train that sends a report a second."""

    number = 0

    def begin(self):
        self.train = Train(5, 9, KMAC, os.urandom)
        self.said, self.next = [], None
        self.send(self.train.start())

    def came(self, octets):
        try:
            self.send(self.train.receive(octets))
        except Broken as why:
            self.soak.wrong(f"a train got {why}")
            self.leave()
            return
        if self.train.state == "gone":
            self.leave()
        elif self.train.state == "connected" and self.next is None:
            self.soak.count["connected"] += 1
            self.next = time.monotonic() + random.random() * EVERY
        heard = self.train.heard
        if heard and heard != self.said[: len(heard)]:
            self.soak.wrong(f"echoes {heard[-2:]} of {self.said[-2:]}")
        if heard and len(heard) == len(self.said):
            self.soak.count["messages"] += len(heard)
            self.said.clear()
            heard.clear()

    def tick(self):
        now = time.monotonic()
        if self.line and self.next is not None and now >= self.next and not self.said:
            Rider.number += 1
            self.said.append(f"position-report-{Rider.number % 10 ** 8:08}".encode())
            self.next = max(self.next + EVERY, now)
            self.send(self.train.say(self.said[-1]))

    def kill(self):
        """Cut off in mid-frame."""
        if self.train.state == "connected":
            self.send(self.train.half_a_frame())
        self.leave(hard=random.random() < 0.5)


class Hostile(Client):
    """A client without a key, of one of some kinds, which leaves after a while by itself."""

    def __init__(self, soak, kind):
        super().__init__(soak)
        self.kind, self.pause = kind, soak.hostile_pause

    def begin(self):
        self.act = time.monotonic()
        self.until = self.act + self.soak.hostile_pause * (0.5 + random.random())
        if self.kind == "half a frame":
            self.send(SABM[:3])

    def tick(self):
        now = time.monotonic()
        if self.line is None or now < self.act:
            return
        self.act = now + 0.2
        if now > self.until:
            self.leave(hard=random.random() < 0.3)
        elif self.kind == "random octets":
            self.send(os.urandom(100))
        elif self.kind == "random frames":
            self.send(framing.spelled(bytes([random.choice((1, 3))]) + os.urandom(random.randrange(1, 60))))
        elif self.kind in ("set-up frames", "reads nothing"):
            self.send(SABM * 10)

    def readable(self):
        if self.kind == "reads nothing":
            self.soak.deafen(self)
        else:
            super().readable()


KINDS = ("random octets", "random frames", "set-up frames", "silent", "half a frame", "reads nothing")


class Soak:
    def __init__(self, program, port, server, trains, hostile, minutes):
        self.program, self.port, self.server = program, port, server
        # Each connection takes one of 65,536 users: hostile clients come so often that they spend half of them at the most.
        self.hostile_pause = max(2.0, minutes * 60 * hostile / 32_768)
        self.selector = selectors.DefaultSelector()
        self.count = collections.Counter()
        self.faults = []
        self.riders = [Rider(self) for _ in range(trains)]
        self.clients = [*self.riders, *(Hostile(self, KINDS[n % len(KINDS)]) for n in range(hostile))]

    def wrong(self, what):
        self.count["wrong"] += 1
        if len(self.faults) < 5:
            self.faults.append(what)

    def watch(self, client):
        self.selector.register(client.line, selectors.EVENT_READ, client)

    def deafen(self, client):
        self.selector.unregister(client.line)

    def forget(self, client):
        if client.line in self.selector.get_map():
            self.selector.unregister(client.line)

    def run(self, seconds):
        """So many seconds of all clients."""
        end = time.monotonic() + seconds
        kill = time.monotonic() + 1
        while time.monotonic() < end:
            for key, _ in self.selector.select(0.02):
                if key.data.line is key.fileobj:
                    key.data.readable()
            now = time.monotonic()
            for client in self.clients:
                if client.line is None and now >= client.at:
                    client.dial()
                client.tick()
            if now >= kill:
                kill += 1
                alive = [rider for rider in self.riders if rider.line and rider.train.state == "connected"]
                if alive:
                    random.choice(alive).kill()
                    self.count["killed"] += 1
            if self.server.poll() is not None:
                sys.exit(f"serve ended with {self.server.returncode}")

    def live(self):
        return sum(rider.line is not None and rider.train.state == "connected" for rider in self.riders)


def seconds_of(pid):
    """Processor time, user and system."""
    with open(f"/proc/{pid}/stat") as text:
        fields = text.read().rsplit(")", 1)[1].split()
    return (int(fields[11]) + int(fields[12])) / TICK


def kib_of(pid):
    with open(f"/proc/{pid}/status") as text:
        return int(next(line for line in text if line.startswith("VmRSS")).split()[1])


def measured(soak, minutes, recording):
    """The figures of each minute: (memory, descriptors, processor time a message)."""
    pid, figures = soak.server.pid, []
    soak.run(SETTLED)
    for minute in range(1, minutes + 1):
        seconds, messages = seconds_of(pid), soak.count["messages"]
        soak.run(60 if minute > 1 else 60 - SETTLED)
        messages = soak.count["messages"] - messages
        cost = (seconds_of(pid) - seconds) / max(messages, 1) * 1e6
        figures.append((kib_of(pid), len(os.listdir(f"/proc/{pid}/fd")), cost))
        print(f"minute {minute}: {soak.live()} trains connected, {messages} messages, {figures[-1][0]} KiB, {figures[-1][1]} descriptors, "
              f"{cost:.1f} us of processor time a message, recording {os.path.getsize(recording) / 1e6:.1f} MB", flush=True)
    return figures


def replayed(program, keys, recording, folder):
    """Counts of parts, and of those that don't replay to themselves."""
    parts, told = parts_of(recording, folder)
    for line in told:
        print(f"tools/recording: {line}")
    with concurrent.futures.ThreadPoolExecutor(os.cpu_count()) as pool:
        bad = sum(not same for same in pool.map(lambda part: replays_to_itself(program, keys, [part]), parts))
    return len(parts), bad, told


def judged(figures):
    """What grew: memory and descriptors behind the first minute, by more than what one more of 256 connections takes in a hundred."""
    first, last = figures[0], figures[-1]
    grew = []
    if last[0] > first[0] * 1.05 + 1024:
        grew.append(f"memory grew from {first[0]} to {last[0]} KiB")
    if last[1] > first[1] + 30:
        grew.append(f"descriptors grew from {first[1]} to {last[1]}")
    print(f"processor time a message: {first[2]:.1f} us in the first minute, {last[2]:.1f} in the last: {100 * (last[2] / first[2] - 1):+.1f} %")
    return grew


def main():
    program = sys.argv[1]
    minutes, trains, hostile = (int(word) for word in sys.argv[2:])
    with tempfile.TemporaryDirectory() as work:
        keys, recording, port = os.path.join(work, "keys"), os.path.join(work, "recording"), free_port()
        with open(keys, "w") as file:
            file.write(KEYS)
        with open(recording, "wb") as out:
            server = subprocess.Popen([program, "serve", keys, f"127.0.0.1:{port}", "9", "1000000000"], stdout=out, stderr=subprocess.DEVNULL)
        if not is_listened_at(port):
            sys.exit("serve doesn't listen")
        soak = Soak(program, port, server, trains, hostile, minutes)
        print(f"{minutes} minutes, {trains} trains, {hostile} hostile clients; load of the machine {os.getloadavg()[0]:.1f} on {os.cpu_count()} processors", flush=True)
        figures = measured(soak, minutes, recording)
        server.send_signal(signal.SIGTERM)
        server.wait(timeout=60)
        grew = judged(figures)
        parts, bad, told = replayed(program, keys, recording, os.path.join(work, "parts"))
    print(f"{soak.count['messages']} messages said back in order, {soak.count['connected']} set-ups of trains, {soak.count['killed']} cut off in mid-frame, "
          f"{parts} connections recorded, {bad} of them don't replay to themselves; serve ended with {server.returncode}")
    for fault in soak.faults + grew + told:
        print("failed:", fault)
    return 1 if soak.faults or grew or bad or told else 0


if __name__ == "__main__":
    sys.exit(main())
