"""Measures for loop.sh beside it: loop.py LOOP_BENCH EURORADIO FLOOR FOLDER ROUNDS, where LOOP_BENCH and FLOOR may be `none`."""

import atexit
import os
import select
import signal
import socket
import statistics
import subprocess
import sys
import time

sys.dont_write_bytecode = True
sys.path.insert(0, os.path.join(os.path.dirname(os.path.abspath(__file__)), "..", "tests"))

from serving import free_port  # noqa: E402

bench, program, floor, work = sys.argv[1:5]
socket_rounds = int(sys.argv[5])
REPORTS = 1000
CALLS = 256
ROUNDS = 15
# How often `serve` writes to the line of one call (counted by strace), and how many octets, about; as much comes.
EXCHANGES, PIECE = 5, 64
# Over sockets the servers have the first of these for themselves, as far as the machine leaves it to them, and their clients the others.
PROCESSORS = sorted(os.sched_getaffinity(0))
KEYS = """version = 1

[[key]]
engine = 5
rbc = 9
kmac = "0123456789abcdef23456789abcdef01456789abcdef0123"
"""


def used_by(child):
    """Nanoseconds of processor time of a child so far, which has one thread."""
    with open(f"/proc/{child.pid}/schedstat") as text:
        return int(text.read().split()[0])


class Rounds:
    """A run of so many trains that serves their record round by round, and stands still between the rounds that are asked for."""

    def __init__(self, trains, reports, times):
        self.echoes, self.times, self.count, self.seconds = trains * reports, times, 0, []
        words = [bench, "trains", str(trains), str(reports), str(times), str(ROUNDS + 2)]
        self.child = subprocess.Popen(words, stdout=subprocess.PIPE)
        self.used, self.first = 0, None
        self.go_on()
        self.seconds = []  # the first round has the live trains in it

    def go_on(self):
        """One more round: its seconds of processor time are kept."""
        self.child.send_signal(signal.SIGCONT)
        words = self.child.stdout.readline().split()
        self.child.send_signal(signal.SIGSTOP)
        os.waitpid(self.child.pid, os.WUNTRACED)
        used = used_by(self.child)
        self.seconds.append((used - self.used) / 1e9)
        self.used = used
        self.count += 1
        told = dict(zip(words[0::2], map(int, words[1::2])))
        self.first = self.first or told
        if told[b"echoed"] != self.echoes:
            sys.exit(f"the trains weren't served whole: {told}")
        passes, first = 1 + self.times * self.count, 1 + self.times
        if any(told[word] * first != self.first[word] * passes for word in (b"turns", b"written", b"journal")):
            sys.exit(f"the record wasn't served as the live trains were: {told}, {self.first}")

    def end(self):
        self.child.kill()
        self.child.wait()


def memory(child):
    """What the system tells of the memory of a child, in KiB."""
    with open(f"/proc/{child.pid}/status") as text:
        sizes = dict(line.split(":", 1) for line in text)
    return {word: int(sizes[word].split()[0]) for word in ("VmHWM", "VmRSS", "VmData")}


def took(trains):
    """The most KiB that a run took until each train had one report said back."""
    with subprocess.Popen([bench, "trains", str(trains), "1", "0", str(2**60)], stdout=subprocess.PIPE) as child:
        child.stdout.readline()
        most = memory(child)["VmHWM"]
        child.kill()
    return most


def in_memory():
    cases = ((1, 256), (16, 16), (256, 1))
    set_ups = {trains: Rounds(trains, 0, 100 * times) for trains, times in cases}
    reported = {trains: Rounds(trains, REPORTS, times) for trains, times in cases}
    # All cases in turns, so that what else the machine does is heard by each of them.
    for _ in range(ROUNDS):
        for case in [*set_ups.values(), *reported.values()]:
            case.go_on()
    least = {}
    each = {}
    for trains, times in cases:
        set_up = min(set_ups[trains].seconds) / (100 * times) / trains
        each[trains] = [seconds / times / trains / REPORTS - set_up / REPORTS for seconds in reported[trains].seconds]
        cost = least[trains] = min(each[trains])
        print(
            f"in memory, {trains:3} trains of {REPORTS} reports: {1 / cost:8.0f} messages/s, {cost * 1e6:6.2f} us a message, "
            f"{set_up * 1e6:6.1f} us a connection with its set-up",
            flush=True,
        )
        set_ups[trains].end()
        reported[trains].end()
    for trains in (16, 256):
        in_turn = statistics.median(many / one for many, one in zip(each[trains], each[1]))
        print(
            f"what a message costs with {trains:3} trains: {least[trains] / least[1]:.2f} of that with one by the least of {ROUNDS} rounds, "
            f"{in_turn:.2f} at the median of the rounds"
        )
    # By how much 64 trains more raise the most that the program takes.
    few, many = (min(took(trains) for _ in range(3)) for trains in (192, 256))
    print(f"in memory, a connection that carried a message, with the end of its train: {(many - few) / 64:.0f} KiB", flush=True)


def begun(words, recording):
    """A server that listens: it has written its first line."""
    with open(recording, "wb") as out:
        server = subprocess.Popen(words, stdout=out, stderr=subprocess.DEVNULL)
    atexit.register(server.kill)
    while os.path.getsize(recording) == 0:
        if server.poll() is not None:
            sys.exit(f"{words[0]} ended with {server.returncode}")
        time.sleep(0.005)
    return server


class Called:
    """A server that lives, and is called by processes, so many at once: what it costs a call in each round."""

    def __init__(self, serving, calling, recording):
        self.server, self.calling, self.costs = begun(serving, recording), calling, {}
        if len(PROCESSORS) > 1:
            os.sched_setaffinity(self.server.pid, PROCESSORS[:1])

    def round(self, at_once):
        before = used_by(self.server)
        for _ in range(CALLS // at_once):
            calls = [subprocess.Popen(self.calling, stdout=subprocess.DEVNULL, stderr=subprocess.DEVNULL) for _ in range(at_once)]
            if any(call.wait() != 0 for call in calls):
                sys.exit("a call failed")
        # Until it has seen the last connection end: it uses no more.
        used = used_by(self.server)
        while True:
            time.sleep(0.05)
            last, used = used, used_by(self.server)
            if used == last:
                break
        self.costs.setdefault(at_once, []).append((used - before) / 1e3 / CALLS)

    def end(self):
        self.server.send_signal(signal.SIGTERM)
        self.server.wait()


def memory_of_accepted(keys, recording):
    port = free_port()
    server = begun([program, "serve", keys, f"127.0.0.1:{port}", "9", "1000000000"], recording)
    before = memory(server)
    peers = [socket.create_connection(("127.0.0.1", port)) for _ in range(CALLS)]
    time.sleep(0.5)
    behind = memory(server)
    server.send_signal(signal.SIGTERM)
    server.wait()
    for peer in peers:
        peer.close()
    return [(behind[word] - before[word]) / CALLS for word in ("VmRSS", "VmData")]


def over_sockets():
    keys, recording = os.path.join(work, "keys"), os.path.join(work, "recording")
    with open(keys, "w") as text:
        text.write(KEYS)
    address, port = f"127.0.0.1:{free_port()}", str(free_port())
    serve = Called([program, "serve", keys, address, "9", "1000000000"], [program, "call", keys, address, "5", "9", "100000"], recording)
    servers = [serve]
    if len(PROCESSORS) > 1:
        os.sched_setaffinity(0, PROCESSORS[1:])
    if floor != "none":
        echo = Called([floor, "serve", port], [floor, "call", port, "1", "1", str(EXCHANGES), str(PIECE)], os.path.join(work, "echoed"))
        servers.append(echo)
    # The first round of each isn't told: it pages in what the later ones find.
    for round in range(socket_rounds + 1):
        for at_once in (1, 16, 256):
            for server in servers:
                server.round(at_once)
    for server in servers:
        server.end()
    os.sched_setaffinity(0, PROCESSORS)
    with open(recording, "rb") as text:
        echoes = sum(b" send " in line for line in text)
    if echoes != 3 * CALLS * 3 * (socket_rounds + 1):
        sys.exit(f"{echoes} messages were said back")
    for at_once in (1, 16, 256):
        costs = serve.costs[at_once][1:]
        beside = ""
        if floor != "none":
            floors = echo.costs[at_once][1:]
            in_turn = statistics.median(cost / least for cost, least in zip(costs, floors))
            beside = (
                f"; the floor {min(floors):5.1f} us (median {statistics.median(floors):5.1f}): "
                f"{min(costs) / min(floors):.2f} times as much by the least of {socket_rounds} rounds, {in_turn:.2f} at the median of the rounds"
            )
        print(
            f"over sockets, {at_once:3} of {CALLS} calls at once: {min(costs):6.1f} us a call (median {statistics.median(costs):6.1f}), "
            f"{3e6 / min(costs):6.0f} messages/s{beside}"
        )
    if floor == "none":
        print("no C compiler: the floor was not measured")
    beside_application(keys, socket_rounds)
    taken, reserved = memory_of_accepted(keys, recording)
    print(f"over sockets, a connection that was accepted: {taken:.0f} KiB, {reserved:.0f} KiB reserved")


# An application that says each message back, and reads meanwhile.
ECHO = """
import select, socket, sys
line = socket.socket(socket.AF_UNIX)
line.connect(sys.argv[1])
line.setblocking(False)
out, held = bytearray(), b""
while True:
    readable, writable, _ = select.select([line], [line] if out else [], [])
    if writable:
        del out[:line.send(out)]
    if readable:
        octets = line.recv(65536)
        if not octets:
            break
        *lines, held = (held + octets).split(b"\\n")
        for words in (text.split(b" ") for text in lines if text.startswith(b"message ")):
            out += b"send %b %b\\n" % (words[1], words[2])
"""


class Trains:
    """Calls with one application, this: each says a report once the one before was said back."""

    def __init__(self, keys, address, count):
        names = [os.path.join(work, f"train-{number}") for number in range(count)]
        self.calls = [
            subprocess.Popen([program, "call", keys, address, "5", "9", "-", name], stdout=subprocess.DEVNULL, stderr=subprocess.DEVNULL) for name in names
        ]
        for call in self.calls:
            atexit.register(call.kill)
        self.lines = []
        for name in names:
            line = socket.socket(socket.AF_UNIX)
            while line.connect_ex(name) != 0:
                time.sleep(0.01)
            self.lines.append(line)
        for line in self.lines:
            if line.recv(4096) != b"connected 1 9\n":
                sys.exit("a train isn't connected")

    def say(self, reports):
        """Each train says so many reports."""
        report = b"send 1 %b\n" % b"position-report-00000001".hex().encode()
        left = dict.fromkeys(self.lines, reports)
        for line in self.lines:
            line.sendall(report)
        while left:
            for line in select.select(list(left), [], [])[0]:
                if not line.recv(4096).startswith(b"message 1 "):
                    sys.exit("a train is released")
                left[line] -= 1
                if left[line]:
                    line.sendall(report)
                else:
                    del left[line]

    def end(self):
        for call in self.calls:
            call.kill()
            call.wait()
        for line in self.lines:
            line.close()


def beside_application(keys, rounds, reports=40):
    """256 trains whose messages Echo says back, in the program, and an application in Python beside it."""
    costs, rates = {}, {}
    for beside in (False, True):
        address, recording = f"127.0.0.1:{free_port()}", os.path.join(work, f"beside-{beside}")
        path = [os.path.join(work, "centre")] if beside else []
        server = begun([program, "serve", keys, address, "9", "-", *path], recording)
        if beside:
            atexit.register(subprocess.Popen([sys.executable, "-c", ECHO, *path]).kill)
        if len(PROCESSORS) > 1:
            os.sched_setaffinity(server.pid, PROCESSORS[:1])
        trains = Trains(keys, address, 256)
        trains.say(1)
        costs[beside], rates[beside] = [], []
        for _ in range(rounds):
            before, began = used_by(server), time.monotonic()
            trains.say(reports)
            messages = 256 * reports
            rates[beside].append(messages / (time.monotonic() - began))
            costs[beside].append((used_by(server) - before) / 1e3 / messages)
        trains.end()
        server.send_signal(signal.SIGTERM)
        server.wait()
        os.remove(recording)
    for beside, who in ((False, "Echo"), (True, "an application in Python")):
        print(f"256 trains, said back by {who}: {min(costs[beside]):5.1f} us of the server a message (median {statistics.median(costs[beside]):5.1f}), {max(rates[beside]):6.0f} messages/s")
    print(f"a message with an application costs the server {min(costs[True]) / min(costs[False]):.2f} times as much as one with Echo")


print(f"load of the machine: {os.getloadavg()[0]:.1f} on {os.cpu_count()} processors")
if bench != "none":
    in_memory()
over_sockets()
