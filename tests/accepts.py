"""`serve` with calls of the system that fail: who waits is accepted all the same, and an accepted connection that is lost is told."""

import os
import re
import signal
import socket
import subprocess
import sys
import tempfile
import time

sys.dont_write_bytecode = True

from serving import free_port  # noqa: E402

program = sys.argv[1]
KEYS = 'version = 1\n\n[[key]]\nengine = 5\nrbc = 9\nkmac = "0123456789abcdef23456789abcdef01456789abcdef0123"\n'
SABM, UA, DISC = bytes.fromhex("7e013febdf7e"), bytes.fromhex("7e017383577e"), bytes.fromhex("7e015381767e")
checks = failed = 0


def check(holds, what):
    global checks, failed
    checks += 1
    if not holds:
        failed += 1
        print("failed:", what)


def is_answered(client, within):
    """Whether a set-up frame is answered within so many seconds."""
    client.settimeout(within)
    try:
        client.sendall(SABM)
        return client.recv(len(UA)) == UA
    except OSError:
        return False


class Serving:
    """A server under strace, in which calls fail as it is told; what it printed, and how often each call was made."""

    def __init__(self, work, *injected, more=""):
        keys = os.path.join(work, "keys")
        with open(keys, "w") as f:
            f.write(KEYS)
        self.port, self.log, self.out = free_port(), os.path.join(work, "calls"), os.path.join(work, "out")
        words = ["strace", "-f", "-s", "100000", "-o", self.log, "-e", "trace=accept4,epoll_ctl,recvfrom,sendto,listen,setsockopt" + more]
        for fault in injected:
            words += ["-e", "inject=" + fault]
        with open(self.out, "wb") as out:
            self.process = subprocess.Popen(words + [program, "serve", keys, f"127.0.0.1:{self.port}", "9", "1000000"], stdout=out, stderr=subprocess.DEVNULL)
        for _ in range(200):
            if "listen(" in self.calls():
                return
            time.sleep(0.05)
        sys.exit("nobody listens")

    def calls(self):
        try:
            with open(self.log) as f:
                return f.read()
        except OSError:
            return ""

    def connected(self):
        return socket.create_connection(("127.0.0.1", self.port), timeout=10)

    def ended(self):
        """What it printed, once it is ended."""
        for word in self.calls().split("\n", 1)[0].split()[:1]:
            os.kill(int(word), signal.SIGKILL)
        self.process.kill()
        self.process.wait()
        with open(self.out, "rb") as f:
            return f.read().decode()


def waits(fault, within, most_accepts):
    """One peer comes while nobody else is there, and the accept fails."""
    with tempfile.TemporaryDirectory() as work:
        serving = Serving(work, fault)
        client = serving.connected()
        begun = time.monotonic()
        answered = is_answered(client, within)
        took = time.monotonic() - begun
        accepts = serving.calls().count("accept4(")
        serving.ended()
        check(answered, f"{fault}: the peer that waits is answered within {within} s")
        check(accepts <= most_accepts, f"{fault}: {accepts} accepts in {took:.1f} s")


def waits_beside_another(fault):
    """One peer comes beside one that is connected and says nothing, and the accept fails: that other one makes no turn."""
    with tempfile.TemporaryDirectory() as work:
        serving = Serving(work, fault)
        idle = serving.connected()
        time.sleep(0.3)
        client = serving.connected()
        answered = is_answered(client, 1)
        accepts = serving.calls().count("accept4(")
        serving.ended()
        idle.close()
        check(answered, f"{fault}: the peer that waits beside an idle one is answered within a second")
        check(accepts <= 5, f"{fault}: {accepts} accepts beside an idle one")


waits("accept4:error=ECONNABORTED:when=1", 2, 4)
waits("accept4:error=EPROTO:when=1..3", 2, 6)
waits("accept4:error=EMFILE:when=1", 3, 4)
waits("accept4:error=ENFILE:when=1..2", 4, 5)
waits("accept4:error=ENOBUFS:when=1", 3, 4)
waits("accept4:error=ENOMEM:when=1", 3, 4)
waits("recvfrom:error=EINTR:when=1", 2, 4)
waits("sendto:error=EINTR:when=1", 2, 4)

waits_beside_another("accept4:error=EMFILE:when=2")
waits_beside_another("accept4:error=ENFILE:when=2")

# what a release tells is written before its socket is closed
with tempfile.TemporaryDirectory() as work:
    serving = Serving(work, more=",write,shutdown,close")
    client = serving.connected()
    check(is_answered(client, 3), "a set-up frame is answered")
    client.sendall(DISC)
    client.settimeout(3)
    try:
        while client.recv(4096):
            pass
    except OSError:
        pass
    client.close()
    time.sleep(0.3)
    calls = serving.calls().splitlines()
    accepted = [(at, found[1]) for at, call in enumerate(calls) if (found := re.search(r"\baccept4\(.* = (\d+)$", call))]
    begun, number = accepted[0] if accepted else (len(calls), "none")
    written = [at for at, call in enumerate(calls) if re.search(r"\bwrite\(1, .*< 1 released ", call)]
    closed = [at for at, call in enumerate(calls) if at > begun and re.search(rf"\b(?:shutdown|close)\({number}[,)]", call)]
    check(written and closed and written[0] < closed[0], f"a release is written before its socket is closed: {accepted} {written} {closed}")
    serving.ended()

# the second registering is that of the first connection
with tempfile.TemporaryDirectory() as work:
    serving = Serving(work, "epoll_ctl:error=ENOSPC:when=2")
    lost = serving.connected()
    time.sleep(0.5)
    client = serving.connected()
    check(is_answered(client, 3), "behind a connection that couldn't be registered the next is served")
    lost.settimeout(3)
    try:
        over = lost.recv(1) == b""
    except ConnectionResetError:
        over = True
    except OSError:
        over = False
    check(over, "that connection is closed")
    text = serving.ended()
    check(any(line.endswith(" 1 fault") for line in text.splitlines()), f"and is told: {text[:300]}")

# two peers wait at the first accept, behind which the listener can't be reported again: the third registering is that
with tempfile.TemporaryDirectory() as work:
    serving = Serving(work, "accept4:delay_enter=700000:when=1", "epoll_ctl:error=ENOSPC:when=3")
    clients = [serving.connected() for _ in range(2)]
    check(all(is_answered(client, 5) for client in clients), "a peer that waits behind the first is accepted where the listener can't be reported again")
    serving.ended()

# what is set at a connection
with tempfile.TemporaryDirectory() as work:
    serving = Serving(work)
    client = serving.connected()
    check(is_answered(client, 3), "a set-up frame is answered")
    calls = serving.calls()
    for option in ("TCP_NODELAY, [1]", "SO_KEEPALIVE, [1]", "TCP_KEEPIDLE, [30]", "TCP_KEEPINTVL, [10]", "TCP_KEEPCNT, [3]", "SO_SNDBUF, [65536]", "SO_RCVBUF, [65536]"):
        check(option in calls, f"{option} is set")
    serving.ended()

# all accepts fail for a second: the server doesn't spin, and serves afterwards
waits("accept4:error=EMFILE:when=1..3", 5, 8)

print(f"{checks} checks, {failed} failed")
sys.exit(1 if failed else 0)
