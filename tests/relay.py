"""For relay.sh beside it: relay.py PROGRAM."""
import os
import random
import re
import select
import socket
import struct
import subprocess
import sys
import tempfile
import threading
import time

sys.dont_write_bytecode = True

from relay_model import Printed, carried, read_script  # noqa: E402
from serving import free_port, is_listened_at  # noqa: E402

PROGRAM = sys.argv[1]
LIMIT = 262_144
ZEROS = "00" * 4096
SABM, UA = "7e013febdf7e", "7e017383577e"
# Where the other sends no more than it has sent, in seconds.
QUIET = 0.25
# The lines of a script, what e and r bring, what r and e get.
ROWS = [
    ("nothing said", "", "00007e013febdf7e7e013febdf7e7e013febde7e", UA, "00007e013febdf7e7e013febdf7e7e013febde7e", UA),
    ("lost", "lose e sabm 1", SABM + SABM, UA, "7e" + SABM, UA),
    ("repeated", "repeat r ua 1", SABM + SABM, UA, SABM + SABM, UA + UA),
    ("altered", "alter e any 2 3 01", SABM + SABM, UA, SABM + "7e013eebdf7e", UA),
    ("put before", "put r any 1 ff", SABM + SABM, UA, SABM + SABM, "ff" + UA),
    ("lost and put before", "lose e sabm 1\nput e sabm 1 00", SABM + SABM, UA, "007e" + SABM, UA),
    ("closed", "close e sabm 1", SABM + SABM, "", SABM, ""),
    ("lost with a shared flag", "lose e any 1", "7e013febdf7e013febdf7e7e0100010004f0000180ff82987e", UA, "7e013febdf7e7e0100010004f0000180ff82987e", UA),
    ("repeated with a shared flag", "repeat e sabm 2", "7e013febdf7e013febdf7e7e0100010004f0000180ff82987e", UA,
     "7e013febdf7e013febdf7e013febdf7e7e0100010004f0000180ff82987e", UA),
    ("altered at both", "alter e i 1 2 02\nalter r any 1 7 01", SABM + "7e0100010004f0000180ff82987e", UA, SABM + "7e0300010004f0000180ff82987e", UA),
    ("in the file's order", "put r ua 1 7e\nrepeat r any 1\nalter r ua 1 1 ff", SABM, UA + UA, SABM, "817e017383577e" + UA + UA),
    ("by kinds", "lose e bad 1\nlose e dt 1\nrepeat e other 1", SABM + "7e013febde7e7e0100010004f0000180ff82987e7e01ffe7197e7e0102010004f0000181ffa01a7e", "",
     SABM + "7e7e7e01ffe7197e7e01ffe7197e7e0102010004f0000181ffa01a7e", ""),
    ("closed behind what is put", "close e dt 2\nput e dt 2 00",
     SABM + "7e0100010004f0000180ff82987e7e0102010004f0000181ffa01a7e" + SABM, "",
     SABM + "7e0100010004f0000180ff82987e007e0102010004f0000181ffa01a7e", ""),
    ("too long for a unit", "lose e any 1\nlose e sabm 1", f"7e{ZEROS}{SABM}{SABM}", UA, f"7e{ZEROS}7e7e{SABM}", UA),
    ("held at the end", "lose e any 2", SABM + "7e0102", UA, SABM + "7e0102", UA),
    ("an end that is lost with nothing", "lose e any 1", "0102", "", "0102", ""),
]
checks = failed = 0


def check(holds, what):
    global checks, failed
    checks += 1
    if not holds:
        failed += 1
        print("failed:", what)


class Relay:
    """A running relay: e connects to `connect()`, and `accept()` is the device that was dialled for it."""

    def __init__(self, lines="", turns="-", device=True, receive=None):
        self.folder = tempfile.TemporaryDirectory()
        self.script = os.path.join(self.folder.name, "script")
        with open(self.script, "w") as file:
            file.write(f"relay 1\n{lines}\n")
        self.port, self.dialled = free_port(), free_port()
        self.listener = None
        if device:
            self.listener = socket.socket()
            self.listener.setsockopt(socket.SOL_SOCKET, socket.SO_REUSEADDR, 1)
            if receive:
                self.listener.setsockopt(socket.SOL_SOCKET, socket.SO_RCVBUF, receive)
            self.listener.bind(("127.0.0.1", self.dialled))
            self.listener.listen(512)
            self.listener.settimeout(10)
        self.printed = open(os.path.join(self.folder.name, "printed"), "w+b")
        words = [PROGRAM, "relay", self.script, f"127.0.0.1:{self.port}", f"127.0.0.1:{self.dialled}", turns]
        self.process = subprocess.Popen(words, stdout=self.printed, stderr=subprocess.DEVNULL)
        if turns == "-" and not is_listened_at(self.port):
            sys.exit("the relay doesn't listen")

    def connect(self):
        e = socket.create_connection(("127.0.0.1", self.port), timeout=10)
        e.setsockopt(socket.IPPROTO_TCP, socket.TCP_NODELAY, 1)
        return e

    def accept(self):
        r, _ = self.listener.accept()
        r.setsockopt(socket.IPPROTO_TCP, socket.TCP_NODELAY, 1)
        r.settimeout(10)
        return r

    def pair(self):
        return self.connect(), self.accept()

    def lines(self):
        """What was printed so far, line by line."""
        self.printed.flush()
        with open(self.printed.name, "rb") as file:
            return file.read().decode().splitlines()

    def wait_for(self, pattern, seconds=10):
        """Whether such a line is printed, at the latest so many seconds from now."""
        for _ in range(seconds * 50):
            if any(re.fullmatch(pattern, line) for line in self.lines()):
                return True
            time.sleep(0.02)
        return False

    def end(self):
        """Ends it, and answers its lines."""
        self.process.terminate()
        self.process.wait()
        lines = self.lines()
        if self.listener:
            self.listener.close()
        self.printed.close()
        self.folder.cleanup()
        return lines


def until_end(s, into):
    """Reads until the other closes or resets."""
    try:
        while octets := s.recv(65536):
            into += octets
    except OSError:
        pass


def until_quiet(s, into, wanted=None):
    """Reads so many octets; without a number until nothing comes for a while."""
    while (wanted is None or len(into) < wanted) and select.select([s], [], [], 10 if wanted else QUIET)[0]:
        octets = s.recv(65536)
        if not octets:
            return
        into += octets


def send(s, octets, cut):
    """Sends octets so many at a time, unless the other closed."""
    try:
        for at in range(0, len(octets), cut):
            s.sendall(octets[at:at + cut])
            if cut < 16:
                time.sleep(0.002)
    except OSError:
        pass


def talk(relay, from_e, from_r, cut):
    """One connection: both bring theirs, and then e ends. What r and e got."""
    e, r = relay.pair()
    with e, r:
        r_got, e_got = bytearray(), bytearray()
        send(e, from_e, cut)
        send(r, from_r, cut)
        until_quiet(e, e_got)
        until_quiet(r, r_got)
        try:
            e.shutdown(socket.SHUT_WR)
        except OSError:
            pass
        until_end(r, r_got)
        until_end(e, e_got)
    return bytes(r_got), bytes(e_got)


def rows():
    for name, lines, from_e, from_r, r_gets, e_gets in ROWS:
        cuts = [8192] if len(from_e) > 2000 else [1, 5, 8192]
        for cut in cuts:
            relay = Relay(lines)
            got = talk(relay, bytes.fromhex(from_e), bytes.fromhex(from_r), cut)
            text = "\n".join(relay.end()) + "\n"
            check(got == (bytes.fromhex(r_gets), bytes.fromhex(e_gets)), f"{name}, {cut} at a time: {got[0].hex()[:120]} {got[1].hex()[:120]}")
            faults = Printed(read_script(f"relay 1\n{lines}\n"), text).faults
            check(not faults, f"{name}, {cut} at a time: {faults[:2]}")


def statuses():
    good = f"127.0.0.1:{free_port()}"
    with tempfile.TemporaryDirectory() as folder:
        script, faulty = os.path.join(folder, "script"), os.path.join(folder, "faulty")
        for path, text in ((script, "relay 1\n"), (faulty, "relay 1\nlose e x 1\n")):
            with open(path, "w") as file:
                file.write(text)
        table = [
            ([script, good, good], 1, "! usage\n"), ([script, good, good, "x"], 1, "! usage\n"), ([script, good, good, "1000000001"], 1, "! usage\n"),
            ([script + "-", good, good, "0"], 2, f"! fetch {script}-\n"), ([faulty, good, good, "0"], 3, "! line 2 value\n"),
            ([script, good, "localhost:1", "0"], 6, "! wires\n"), ([script, "nobody", good, "0"], 6, "! wires\n"), ([script, good, good, "0"], 0, "relay 1\n"),
        ]
        for words, status, printed in table:
            done = subprocess.run([PROGRAM, "relay", *words], stdin=subprocess.DEVNULL, capture_output=True, text=True, timeout=20)
            check((done.returncode, done.stdout) == (status, printed), f"relay {words}: {done.returncode} {done.stdout!r}")
            told = done.stderr.splitlines()
            check(status == 0 or told[0].startswith("euroradio: "), f"relay {words}: told {told[:1]}")
        with open("/dev/full", "w") as full:
            done = subprocess.run([PROGRAM, "relay", script, good, good, "0"], stdout=full, stderr=subprocess.DEVNULL, timeout=20)
            check(done.returncode == 5, f"a standard output that is full: {done.returncode}")
        with socket.socket() as taken:
            taken.bind(("127.0.0.1", 0))
            taken.listen()
            address = f"127.0.0.1:{taken.getsockname()[1]}"
            done = subprocess.run([PROGRAM, "relay", script, address, good, "0"], capture_output=True, text=True, timeout=20)
            check((done.returncode, done.stdout) == (6, "! wires\n"), f"an address that is taken: {done.returncode} {done.stdout!r}")


def refusals():
    """The words for people of a script that is refused."""
    table = [
        ("relay 2\n", 1, "header", "a script begins with the line 'relay 1'"), ("relay 1\nloose e any 1\n", 2, "word", "lines begin with lose, repeat, alter, put, delay, close"),
        ("relay 1\n\nlose e any\n", 3, "count", "'lose' wants behind it S KIND K, and so many words stand there: 2"),
        ("relay 1\nlose x any 1\n", 2, "number", "'x' stands where a side, e or r, is wanted"),
        ("relay 1\nrepeat e sabme 1\n", 2, "value", "'sabme' stands where a kind of units, any, bad, i, rr, "),
        ("relay 1\nclose r any 0\n", 2, "value", "'0' stands where a number, 1 to 1000000000, is wanted"),
        ("relay 1\nalter e any 1 1 00\n", 2, "value", "'00' stands where one octet other than 00, "),
        ("relay 1\nput e any 1 f\n", 2, "hex", "'f' stands where at most 4096 octets, "),
        ("relay 1\ndelay e any 1 1000000001\n", 2, "value", "stands where milliseconds, 0 to 1000000000, is wanted"),
    ]
    with tempfile.TemporaryDirectory() as folder:
        script = os.path.join(folder, "script")
        for text, line, why, told in table:
            with open(script, "w") as file:
                file.write(text)
            words = [PROGRAM, "relay", script, "127.0.0.1:1", "127.0.0.1:1", "0"]
            done = subprocess.run(words, stdin=subprocess.DEVNULL, capture_output=True, text=True, timeout=20)
            check((done.returncode, done.stdout) == (3, f"! line {line} {why}\n"), f"{text!r}: {done.returncode} {done.stdout!r}")
            check(f": line {line}: " in done.stderr and told in done.stderr, f"{text!r}: told {done.stderr!r}")


def turns():
    relay = Relay(turns="3")
    check(is_listened_at(relay.port), "a relay of three turns listens")
    e = relay.connect()
    try:
        relay.accept()
        send(e, b"\x00" * 10, 1)
        check(relay.process.wait(timeout=10) == 0, "three turns end with status 0")
    except (OSError, subprocess.TimeoutExpired) as why:
        check(False, f"three turns: {why}")
    e.close()
    relay.end()


def delays():
    relay = Relay("delay e sabm 1 400\ndelay e sabm 1 200")
    e, r = relay.pair()
    begun = time.monotonic()
    send(e, bytes.fromhex(SABM + UA), 100)
    send(r, b"\x01", 1)
    e_got, r_got = bytearray(), bytearray()
    until_quiet(e, e_got, 1)
    check(time.monotonic() - begun < 0.4 and bytes(e_got) == b"\x01", "what is delayed delays nothing of the other side")
    while len(r_got) < 12 and select.select([r], [], [], 5)[0]:
        r_got += r.recv(100)
    check(0.55 < time.monotonic() - begun < 3, "600 ms later")
    check(r_got.hex() == SABM + UA, f"what is behind a delay comes behind it: {r_got.hex()}")
    # A side that ends: what is delayed is given still.
    f, s = relay.pair()
    send(f, bytes.fromhex(SABM), 100)
    f.shutdown(socket.SHUT_WR)
    s_got = bytearray()
    until_end(s, s_got)
    check(s_got.hex() == SABM, f"what is delayed is given behind the end of its side: {s_got.hex()}")
    text = "\n".join(relay.end()) + "\n"
    check(not Printed(read_script("relay 1\ndelay e sabm 1 400\ndelay e sabm 1 200\n"), text).faults, "moments of what is delayed")


def ends():
    nobody = Relay(device=False)
    e = nobody.connect()
    got = bytearray()
    until_end(e, got)
    check(not got and nobody.wait_for("< [0-9]+ 1 closed"), "a device that nobody listens for: closed")
    check([re.sub(" [0-9]+ 1 ", " ", line) for line in nobody.end()[1:]] == ["> open", "> end r", "< closed"], "a device that nobody listens for: the lines")
    relay = Relay()
    e, r = relay.pair()
    e.setsockopt(socket.SOL_SOCKET, socket.SO_LINGER, struct.pack("ii", 1, 0))
    e.close()
    got = bytearray()
    until_end(r, got)
    check(not got and relay.wait_for("< [0-9]+ 1 closed"), "a side that resets: both are closed")
    e, r = relay.pair()
    send(r, b"\x05\x06", 2)
    r.close()
    got = bytearray()
    until_end(e, got)
    check(bytes(got) == b"\x05\x06", "what came before the end of r is given")
    text = "\n".join(relay.end()) + "\n"
    told = Printed([], text)
    check(not told.faults and [told.connections[n].ended for n in (1, 2)] == [["e"], ["r"]], f"ends: {told.faults}")


def full_queue():
    relay = Relay(receive=8192)
    e, r = relay.pair()
    octets = random.Random(1).randbytes(3_000_000)
    sender = threading.Thread(target=send, args=(e, octets, 65536))
    sender.start()
    time.sleep(1.5)
    came = sum(len(line.split()[4]) // 2 for line in relay.lines() if re.match("> [0-9]+ 1 e ", line))
    check(LIMIT < came < LIMIT + 1_000_000, f"a device that doesn't read: {came} octets were read")
    send(r, b"\x07", 1)
    e_got, got = bytearray(), bytearray()
    until_quiet(e, e_got, 1)
    check(bytes(e_got) == b"\x07", "the other way goes on")
    until_quiet(r, got, len(octets) - 4096)
    sender.join()
    e.shutdown(socket.SHUT_WR)
    until_end(r, got)
    check(bytes(got) == octets, f"all of it is given once it reads: {len(got)} of {len(octets)}")
    relay.end()


def many():
    relay = Relay()
    pairs = [relay.pair() for _ in range(256)]
    more = relay.connect()
    got = bytearray()
    until_end(more, got)
    check(not got and relay.wait_for("< [0-9]+ 257 closed"), "the 257th is closed at once")
    pairs[17][0].close()
    check(relay.wait_for("< [0-9]+ 18 closed"), "one of them is closed")
    pairs[17] = relay.pair()
    for number, (e, r) in enumerate(pairs):
        e.sendall(b"%04d" % number)
        r.sendall(b"%04d" % (number + 1000))
    for number, (e, r) in enumerate(pairs):
        to_r, to_e = bytearray(), bytearray()
        until_quiet(r, to_r, 4)
        until_quiet(e, to_e, 4)
        check((bytes(to_r), bytes(to_e)) == (b"%04d" % number, b"%04d" % (number + 1000)), f"connection {number + 1} of 256")
        e.close()
        r.close()
    relay.end()


UNITS = [bytes.fromhex(unit) for unit in (
    SABM, UA, "7e013febde7e", "7e0100010004f0000180ff82987e", "7e0102010004f0000181ffa01a7e", "7e01ffe7197e", "013febdf7e", "7e", "7e7e", "00", "7e7d", "0102037e")]
KINDS = ["any", "bad", "i", "sabm", "ua", "other", "dt"]


def random_line(draw):
    change = draw.choice(["lose", "repeat", "alter", "put", "delay", "close"])
    more = {"alter": f" {draw.randint(1, 9)} {draw.randint(1, 255):02x}", "put": f" {draw.randbytes(draw.randint(1, 4)).hex()}", "delay": f" {draw.randint(0, 60)}"}
    return f"{change} {draw.choice('er')} {draw.choice(KINDS)} {draw.randint(1, 6)}{more.get(change, '')}"


def random_scripts(count):
    """What was given is a beginning of what is carried of what came, and all of it of the side that ended, unless a line closed the connection."""
    draw = random.Random(7)
    for number in range(count):
        lines = [random_line(draw) for _ in range(draw.randint(0, 5))]
        script = read_script("\n".join(["relay 1", *lines]))
        from_e, from_r = (b"".join(draw.choice(UNITS) for _ in range(draw.randint(0, 14))) for _ in "er")
        relay = Relay("\n".join(lines))
        r_got, e_got = talk(relay, from_e, from_r, draw.choice([1, 3, 7, 64]))
        told = Printed(script, "\n".join(relay.end()) + "\n")
        check(not told.faults, f"script {number} {lines}: {told.faults[:2]}")
        given = {side: b"".join(octets for _, octets in told.connections[1].given[side]) for side in "er"}
        check((given["e"], given["r"]) == (r_got, e_got), f"script {number} {lines}: what was told isn't what came out")
        is_closed = any(line.startswith("close") for line in lines)
        whole = r_got == carried(script, "e", from_e) and e_got == carried(script, "r", from_r)[:len(e_got)]
        check(whole or is_closed, f"script {number} {lines}: {r_got.hex()} of {from_e.hex()}, {e_got.hex()} of {from_r.hex()}")


statuses()
refusals()
rows()
turns()
delays()
ends()
full_queue()
many()
random_scripts(40)
print(f"{checks} checks, {failed} failed")
sys.exit(1 if failed else 0)
