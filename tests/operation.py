"""Days of operation of the built program: the wall clock is set, 300 trains come one after the other, turns have no bound, limits of the system
are met, and what is told on the standard error."""

import os
import re
import resource
import signal
import socket
import subprocess
import sys
import threading
import time

sys.dont_write_bytecode = True

from train import Train  # noqa: E402

program, work = sys.argv[1:]
shim = os.path.join(work, "clock.so")
KMAC = "0123456789abcdef23456789abcdef01456789abcdef0123"
KEYS = f'version = 1\n\n[[key]]\nengine = 5\nrbc = 9\nkmac = "{KMAC}"\n'
REPORTS = [f"position-report-{n:08}" for n in (1, 2, 3)]
passed = failed = 0

# Of a key file that others may read a server tells first.
os.umask(0o077)

# A script that was begun in the background of a shell inherits that interrupts are ignored, and so would its servers.
signal.signal(signal.SIGINT, signal.default_int_handler)


def check(holds, what):
    global passed, failed
    if holds:
        passed += 1
    else:
        failed += 1
        print("failed:", what)


def path(name):
    return os.path.join(work, name)


keys = path("keys")
with open(keys, "w") as f:
    f.write(KEYS)


def ended(words, **more):
    """The status, the standard output and the standard error of a run."""
    done = subprocess.run([program, *words], capture_output=True, timeout=120, **more)
    return done.returncode, done.stdout.decode(), done.stderr.decode()


class Server:
    """A `serve` at a port that the system chose, which its standard error tells."""

    def __init__(self, turns, **more):
        self.recording = path("recording")
        self.out = open(self.recording, "wb")
        self.process = subprocess.Popen(
            [program, "serve", keys, "127.0.0.1:0", "9", turns], stdout=self.out, stderr=subprocess.PIPE, **more
        )
        line = self.process.stderr.readline().decode()
        told = re.fullmatch(r"euroradio: listening at (127\.0\.0\.1:\d+)\n", line)
        if not told:
            sys.exit(f"the address isn't told: {line!r}")
        self.address = told[1]

    def call(self):
        return ended(["call", keys, self.address, "5", "9", "1000"])

    def kept(self, field):
        """A line of what the system tells of the process."""
        with open(f"/proc/{self.process.pid}/status") as f:
            return next(line.split(":")[1].strip() for line in f if line.startswith(field))

    def end(self, number):
        """The status and the rest of the standard error, once this signal was sent. None: it ends by itself."""
        if number is not None:
            self.process.send_signal(number)
        rest = self.process.stderr.read().decode()
        status = self.process.wait(timeout=60)
        self.out.close()
        return status, rest

    def replays(self):
        """Whether the recording is whole lines, and replays to itself."""
        with open(self.recording, "rb") as f:
            text = f.read()
        status, again, _ = ended(["replay", keys, self.recording])
        return text.endswith(b"\n") and status == 0 and again.encode() == text


def secrets(text):
    """What mustn't be on the standard error: octets of keys, texts and random numbers are long words of hexadecimal digits, a report is text."""
    return re.findall(r"[0-9a-fA-F]{8,}|position-report", text)


# ---- the wall clock is set while a call waits for a peer that says nothing

def silent_call(seconds, results):
    """A call to a peer that takes octets and says nothing, whose wall clock is set ahead by so many seconds after 1.5 s: when each set-up frame came, and
    what was recorded."""
    with socket.socket() as listener:
        listener.bind(("127.0.0.1", 0))
        listener.listen()
        mark = path(f"shifted{seconds}")
        environment = dict(os.environ, LD_PRELOAD=shim, SHIFT=str(seconds), AFTER="1500", SHIFTED=mark)
        port = listener.getsockname()[1]
        call = subprocess.Popen(
            [program, "call", keys, f"127.0.0.1:{port}", "5", "9", "1000"], stdout=subprocess.PIPE, stderr=subprocess.PIPE, env=environment
        )
        line, _ = listener.accept()
        line.settimeout(12)
        came = []
        begun = time.monotonic()
        try:
            while got := line.recv(4096):
                came.append((time.monotonic() - begun, got.hex()))
        except OSError:
            pass
        line.close()
        text, told = call.communicate(timeout=60)
    results[seconds] = came, text.decode(), told.decode(), os.path.exists(mark)


results = {}
threads = [threading.Thread(target=silent_call, args=(seconds, results)) for seconds in (-60, 0, 60)]
for thread in threads:
    thread.start()
for thread in threads:
    thread.join()
now = int(subprocess.run(["date", "+%s"], capture_output=True, env=dict(os.environ, LD_PRELOAD=shim, SHIFT="60", AFTER="0")).stdout)
check(55 <= now - time.time() <= 65, "what sets the clock does so")
for seconds, (came, text, told, looked) in results.items():
    frames = [at for at, octets in came if octets == "7e013febdf7e"]
    check(looked, f"the program looks at a clock that was set by {seconds} s")
    check(len(frames) == 6, f"set by {seconds} s: six set-up frames: {came}")
    steps = [b - a for a, b in zip(frames, frames[1:])]
    check(all(0.9 <= step <= 1.2 for step in steps), f"set by {seconds} s: a set-up frame each second: {steps}")
    check("< 1 released 1 1 local\n" in text, f"set by {seconds} s: given up with 1.1: {text[-200:]}")
    moments = [int(m) for m in re.findall(r"^> (\d+) ", text, re.M)]
    ticks = moments[:1] + [int(m) for m in re.findall(r"^> (\d+) 1 tick$", text, re.M)]
    steps = [b - a for a, b in zip(ticks, ticks[1:])]
    check(moments == sorted(moments), f"set by {seconds} s: moments go on: {moments}")
    check(len(steps) == 6 and all(900 <= step <= 1_200 for step in steps), f"set by {seconds} s: six ticks, each a second behind the last: {steps}")
    check("released, 1.1 local" in told, f"what became of the call is told: {told}")

# ---- no bound of turns, 300 trains one after the other, what a kill leaves

server = Server("-")
idle = server.kept("VmHWM")
served = 0
for _ in range(300):
    status, text, told = server.call()
    taken = re.findall(r"^< 1 taken ([0-9a-f]+)$", text, re.M)
    served += status == 0 and [bytes.fromhex(t).decode() for t in taken] == REPORTS and "released, 0.0 local" in told
    if secrets(told):
        check(False, f"a secret on the standard error: {told}")
check(served == 300, f"300 trains one after the other are served: {served}")
check(len(os.listdir(f"/proc/{server.process.pid}/fd")) < 20, "their sockets are closed")
busy = server.kept("VmHWM")
status, rest = server.end(signal.SIGTERM)
check(status == -signal.SIGTERM, f"a kill ends the server: {status}")
check(server.replays(), "what a kill leaves replays to itself")
print(f"an idle server takes {idle}, after 300 trains {busy}")

# ---- the memory of a connection that is over goes to one that comes: it doesn't grow while trains come and go beside others that stay

def ride(address):
    """The line of a train that is connected and had one report said back, and the train."""
    host, port = address.split(":")
    line, train = socket.create_connection((host, int(port)), timeout=20), Train(5, 9, KMAC, os.urandom)
    line.sendall(train.start())
    said = False
    while not train.heard:
        line.sendall(train.receive(line.recv(65536)))
        if train.state == "connected" and not said:
            said = True
            line.sendall(train.say(b"position-report-00000001"))
    return line, train


server = Server("-")
riders = [ride(server.address) for _ in range(60)]
before = int(server.kept("VmRSS").split()[0])
for again in range(120):
    line, train = riders[again * 7 % 60]
    line.sendall(train.half_a_frame())
    line.close()
    riders[again * 7 % 60] = ride(server.address)
grown = int(server.kept("VmRSS").split()[0]) - before
server.end(signal.SIGTERM)
for line, _ in riders:
    line.close()
check(grown <= 256, f"120 trains in the places of others that were cut off: {grown} KiB more")

# ---- what goes to the line was recorded before, and where it can't be recorded nothing goes

SET_UP = "7e013febdf7e"


def recorded(server):
    with open(server.recording) as f:
        return f.read()


server = Server("-")
host, port = server.address.split(":")
for conn in (1, 2, 3):
    with socket.create_connection((host, int(port)), timeout=10) as line:
        line.sendall(bytes.fromhex(SET_UP))
        got = line.recv(4096).hex()
        text = recorded(server)
        check(re.search(rf"^> \d+ {conn} octets {SET_UP}\n< {conn} octets {got}\n", text, re.M), f"an answer is recorded before it goes: {got} {text}")
        line.shutdown(socket.SHUT_WR)
        check(line.recv(4096) == b"" and f"< {conn} released 1 5 local\n" in recorded(server), f"a release is recorded before its connection is closed: {recorded(server)}")
status, _ = server.end(signal.SIGTERM)
check(status == -signal.SIGTERM and server.replays(), "what is left replays")


# One turn lasts until somebody comes, and what was told before is recorded then.
server = Server("1")
time.sleep(0.3)
check(server.process.poll() is None and "trace 1" in recorded(server), f"one turn lasts until somebody comes: {server.process.poll()} {recorded(server)}")
server.end(signal.SIGTERM)

# What brings no answer is recorded too: of a connection that says nothing, and where octets without a meaning come all the time.
server = Server("-")
host, port = server.address.split(":")
with socket.create_connection((host, int(port)), timeout=10) as line:
    time.sleep(0.5)
    check(re.search(r"^> \d+ 1 answer 9 [0-9a-f]+\n", recorded(server), re.M), f"a connection that says nothing is recorded: {recorded(server)}")
    line.setsockopt(socket.IPPROTO_TCP, socket.TCP_NODELAY, 1)
    for _ in range(100):
        line.sendall(b"~")
        time.sleep(0.005)
    soon = sum(len(octets) // 2 for octets in re.findall(r"^> \d+ 1 octets ([7e]+)\n", recorded(server), re.M))
    check(soon >= 50, f"octets that come without end are recorded as they come: {soon} of 100")
server.end(signal.SIGTERM)


def grows_to(octets):
    def before():
        signal.signal(signal.SIGXFSZ, signal.SIG_IGN)
        resource.setrlimit(resource.RLIMIT_FSIZE, (octets, octets))
    return before


# Room for the first line and a part of what the first connection tells.
server = Server("-", preexec_fn=grows_to(100), restore_signals=False)
host, port = server.address.split(":")
with socket.create_connection((host, int(port)), timeout=10) as line:
    try:
        line.sendall(bytes.fromhex(SET_UP))
        got = line.recv(4096)
    except ConnectionResetError:
        got = b""
status, rest = server.end(None)
check(got == b"" and status == 5 and "a write to the standard output failed" in rest, f"no octet goes that isn't recorded: {got} {status} {rest}")
check(os.path.getsize(server.recording) == 100, "all that there was room for is recorded")
with open("/dev/full", "wb") as full:
    done = subprocess.run([program, "serve", keys, "127.0.0.1:0", "9", "-"], stdout=full, stderr=subprocess.PIPE, timeout=20)
    check(done.returncode == 5, f"a server that can't record ends with 5: {done}")
    with socket.socket() as listener:
        listener.bind(("127.0.0.1", 0))
        listener.listen()
        call = subprocess.Popen([program, "call", keys, f"127.0.0.1:{listener.getsockname()[1]}", "5", "9", "-"], stdout=full, stderr=subprocess.PIPE)
        line, _ = listener.accept()
        line.settimeout(10)
        try:
            got = line.recv(4096)
        except ConnectionResetError:
            got = b""
        line.close()
        call.communicate(timeout=20)
        check(got == b"" and call.returncode == 5, f"a call that can't record says nothing and ends with 5: {got} {call.returncode}")

# ---- what a server tells while it serves: its keys, what isn't as usual with the peer's address, at most a line a second

server = Server("-")
line = server.process.stderr.readline().decode()
check(line == "euroradio: keys 1, of radio block centre 9 1, of which 1 hold now\n", f"the keys of a server: {line!r}")
other = path("other-keys")
with open(other, "w") as f:
    f.write(KEYS.replace(KMAC, KMAC[::-1]).replace("rbc = 9", "rbc = 9\n") + f'\n[[key]]\nengine = 6\nrbc = 9\nkmac = "{KMAC}"\n')
status, _, told = ended(["call", other, server.address, "6", "9", "1000"])
check(status == 0 and "3.1 peer: the radio block centre 9 has no key of engine 6 at this moment" in told, f"a call without a key at the centre: {status} {told}")
server.call()
line = server.process.stderr.readline().decode()
check(re.fullmatch(r"euroradio: connection 1 of 127\.0\.0\.1:\d+: released 3\.1 local: no key of this engine holds at the radio block centre\n", line), f"a refused train: {line!r}")
time.sleep(1.1)
for _ in range(3):
    ended(["call", other, server.address, "5", "9", "1000"])
time.sleep(1.1)
server.call()
status, rest = server.end(signal.SIGTERM)
check(len(re.findall(r"^euroradio: connection \d+ of 127\.0\.0\.1:\d+: released \d\.\d (?:local|peer): ", rest, re.M)) in (1, 2), f"at most a line a second: {rest!r}")
check(re.search(r"; and [12] more that were not as usual$", rest, re.M), f"what came besides is counted: {rest!r}")
check(not secrets(rest), f"no secret on the standard error: {rest}")
done = subprocess.run([program, "serve", keys, "127.0.0.1:0", "77", "0"], capture_output=True, timeout=20)
check(b"keys 1, of radio block centre 77 0, of which 0 hold now" in done.stderr and b"warning: no key holds for radio block centre 77" in done.stderr, f"a server without keys: {done.stderr!r}")

# Where the recording is cut off at any place of a session, each octet that the train got stands in it.

def session(server, texts):
    """The octets that a train got which is connected and has each of these texts said back, and the train. It ends where nothing more comes."""
    host, port = server.address.split(":")
    got, train = b"", Train(5, 9, KMAC, os.urandom)
    try:
        with socket.create_connection((host, int(port)), timeout=5) as line:
            line.sendall(train.start())
            said = 0
            while len(train.heard) < len(texts) and (octets := line.recv(65536)):
                got += octets
                line.sendall(train.receive(octets))
                if train.state == "connected" and said == len(train.heard) < len(texts):
                    line.sendall(train.say(texts[said]))
                    said += 1
    except OSError:
        pass
    return got, train


def written(server):
    """The octets that the recording tells to have gone to its one connection, a last line that was cut off among them."""
    told = "".join(re.findall(r"^< 1 octets ([0-9a-f]*)", recorded(server), re.M))
    return bytes.fromhex(told[: len(told) // 2 * 2])


TEXTS = [b"position-report-00000001", b"position-report-00000002", bytes(range(200))]
server = Server("-")
got, train = session(server, TEXTS)
server.end(signal.SIGTERM)
whole = os.path.getsize(server.recording)
check(train.heard == TEXTS and written(server).startswith(got), f"a whole session is recorded: {len(train.heard)} {len(got)} {len(written(server))}")
unrecorded = []
for room in range(100, whole, 60):
    server = Server("-", preexec_fn=grows_to(room), restore_signals=False)
    got, train = session(server, TEXTS)
    server.end(signal.SIGTERM)
    if not written(server).startswith(got):
        unrecorded.append((room, len(got), len(written(server))))
check(not unrecorded, f"no octet goes that a recording of any length doesn't hold: {unrecorded}")

# ---- messages of every length are said back

LONG = [bytes([length % 251]) * length for length in (1, 122, 123, 700, 701, 1023)]
server = Server("-")
got, train = session(server, LONG)
server.end(signal.SIGTERM)
check(train.heard == LONG, f"messages of 1 to 1,023 octets are said back: {[len(text) for text in train.heard]}")
check(server.replays(), "their recording replays")

# ---- random numbers are drawn anew at each start, so what a train sent to one server is nothing to the next

words = []
for _ in range(2):
    server = Server("-")
    status, text, told = server.call()
    server.end(signal.SIGTERM)
    words += re.findall(r"^> \d+ 1 call 5 9 ([0-9a-f]{16})$", text, re.M) + re.findall(r"^> \d+ 1 answer 9 ([0-9a-f]{16})$", recorded(server), re.M)
check(len(words) == len(set(words)) == 4, "two servers and two calls have four different random numbers")


def said_by_a_train(server, text):
    """What a train sends to a server, piece by piece, until this text was said back, and the number of the AU2 that it got."""
    host, port = server.address.split(":")
    train, pieces, has_said = Train(5, 9, KMAC, os.urandom), [], False
    with socket.create_connection((host, int(port)), timeout=5) as line:
        pieces.append(train.start())
        while not train.heard:
            line.sendall(pieces[-1])
            pieces.append(train.receive(line.recv(65536)))
            if train.state == "connected" and not has_said:
                pieces[-1] += train.say(text)
                has_said = True
    return pieces[:-1], train.peers_random.hex()


def said_again(server, pieces):
    """The same pieces, each behind something that the server said or half a second."""
    host, port = server.address.split(":")
    with socket.create_connection((host, int(port)), timeout=0.5) as line:
        for piece in pieces:
            try:
                line.sendall(piece)
                line.recv(65536)
            except OSError:
                pass


first = Server("-")
pieces, number = said_by_a_train(first, b"position-report-00000001")
first.end(signal.SIGTERM)
check("< 1 connected 5\n" in recorded(first) and "< 1 accepted " in recorded(first), f"a train is served: {recorded(first)[-300:]}")
check(re.search(rf"^> \d+ 1 answer 9 {number}$", recorded(first), re.M), f"the number of AU2 is that of the recording: {number}")
second = Server("-")
said_again(second, pieces)
_, other = said_by_a_train(second, b"position-report-00000001")
second.end(signal.SIGTERM)
text = recorded(second)
check(other != number, f"the next server's AU2 has another number: {number} {other}")
check(not re.search(r"^< 1 (?:connected|accepted) ", text, re.M) and re.search(r"^< 1 released 3 ", text, re.M), f"what was said to one server connects nobody to the next: {text[:2_000]}")
check("< 2 connected 5\n" in text, "and an honest train is served behind it")

# ---- where T1 of three ends expires in one turn, they are visited in rising number

def ticks_of_one_turn():
    """The connections of which T1 expired at one moment, in their order: of three that had their AU2 and say nothing more, while the server was stopped."""
    server = Server("-")
    host, port = server.address.split(":")
    lines = []
    for _ in range(3):
        line, train = socket.create_connection((host, int(port)), timeout=10), Train(5, 9, KMAC, os.urandom)
        line.sendall(train.start())
        line.sendall(train.receive(line.recv(4096)))
        line.recv(4096)
        lines.append(line)
    server.process.send_signal(signal.SIGSTOP)
    time.sleep(1.3)
    server.process.send_signal(signal.SIGCONT)
    time.sleep(0.7)
    server.end(signal.SIGTERM)
    for line in lines:
        line.close()
    ticks = re.findall(r"^> (\d+) (\d+) tick$", recorded(server), re.M)
    return [int(conn) for moment, conn in ticks if moment == ticks[0][0]]


for _ in range(5):
    visited = ticks_of_one_turn()
    if len(visited) == 3:
        break
check(visited == [1, 2, 3], f"ends whose T1 expires in one turn are visited in rising number: {visited}")

# ---- a bound of turns, and the line of counts

server = Server("40")
for _ in range(8):
    server.call()
status, rest = server.end(None)
check(status == 0 and server.replays(), f"a server ends by its turns: {status}")
line = rest.splitlines()[-1:] or [""]
counted = re.match(r"euroradio: connections (\d+), turned away 0, connected (\d+), messages accepted (\d+), said (\d+), refused 0, ignored 0", line[0])
with open(server.recording) as f:
    text = f.read()
for what, word in ((1, r"> \d+ \d+ answer "), (2, r"< \d+ connected "), (3, r"< \d+ accepted "), (4, r"> \d+ \d+ send ")):
    check(counted and int(counted[what]) == len(re.findall("^" + word, text, re.M)), f"the count of {word!r}: {line}")
check(not secrets(rest), f"no secret on the standard error: {rest}")

# ---- bad frames are counted: a set-up frame, three whose check sequence doesn't fit, then flags until the turns are done

server = Server("12")
host, port = server.address.split(":")
with socket.create_connection((host, int(port))) as line:
    line.sendall(bytes.fromhex("7e013febdf7e" + "7e01ffffff7e" * 3))
    for _ in range(200):
        if server.process.poll() is not None:
            break
        try:
            line.sendall(b"~")
        except OSError:
            pass
        time.sleep(0.02)
status, rest = server.end(None)
check(status == 0 and "refused 0, ignored 3" in rest, f"bad frames are counted: {status} {rest}")

# ---- an interrupt

server = Server("-")
server.call()
status, rest = server.end(signal.SIGINT)
check(status == -signal.SIGINT and server.replays(), f"an interrupt ends the server, and what it leaves replays: {status}")

# ---- why

with socket.socket() as other:
    other.bind(("127.0.0.1", 0))
    other.listen()
    port = other.getsockname()[1]
    status, text, told = ended(["serve", keys, f"127.0.0.1:{port}", "9", "1"])
    check((status, text) == (6, "! wires\n") and "in use" in told, f"an address in use: {status} {told}")
for address in ("localhost:1", "127.0.0.1:65536", "127.0.0.1", ""):
    status, text, told = ended(["serve", keys, address, "9", "-"])
    check((status, text) == (6, "! wires\n") and "no IP address" in told, f"no address {address!r}: {status} {told}")
status, text, told = ended(["drill", path("nothing")])
check((status, text) == (2, f"! fetch {path('nothing')}\n") and "No such file" in told, f"no such file: {status} {told}")
status, text, told = ended(["drill", work])
check(status == 2 and "directory" in told, f"a folder: {status} {told}")
with open(path("long"), "wb") as f:
    f.truncate(33_554_433)
status, text, told = ended(["replay", keys, path("long")])
check(status == 2 and "33554432" in told, f"a file that is too long: {status} {told}")
for words in ([], ["serve", keys, "127.0.0.1:0", "9", "--"], ["bulk", "1", "-"], ["serve", keys, "127.0.0.1:0", "9", "1000000001"]):
    status, text, told = ended(words)
    check((status, text) == (1, "! usage\n") and "\nusage: euroradio" in told, f"{words}: {status} {told[:60]}")

# ---- a file that may not grow: the system kills, unless its signal is ignored

def limited(ignored):
    def before():
        signal.signal(signal.SIGXFSZ, signal.SIG_IGN if ignored else signal.SIG_DFL)
        resource.setrlimit(resource.RLIMIT_FSIZE, (1, 1))
    with open(path("short"), "wb") as out:
        return subprocess.run([program, "bulk", "1", "0"], stdout=out, preexec_fn=before, restore_signals=False, timeout=20).returncode


check(limited(True) == 5, "a file that may not grow, the signal ignored: 5")
check(limited(False) in (5, -signal.SIGXFSZ), "a file that may not grow: 5, or the system's signal")

print(f"{passed} passed, {failed} failed")
sys.exit(1 if failed or not passed else 0)
