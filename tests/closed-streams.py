"""Each command with each choice of the standard streams closed."""

import itertools
import os
import re
import socket
import subprocess
import sys
import tempfile
import threading

program = sys.argv[1]
examples = os.path.join(os.path.dirname(os.path.abspath(__file__)), "..", "examples")
CLOSED = {0: "<&-", 1: ">&-", 2: "2>&-"}
passed = failed = 0


def check(holds, what):
    global passed, failed
    if holds:
        passed += 1
    else:
        failed += 1
        print("failed:", what)


def run(closed, words, out):
    """The status of a run with these streams closed, None where it doesn't end; what it prints goes into the file `out`, where it can print."""
    command = 'exec "$@" ' + " ".join(CLOSED[stream] for stream in closed)
    with open(out, "wb") as printed:
        try:
            return subprocess.run(
                ["bash", "-c", command, "bash", program, *words],
                stdin=subprocess.DEVNULL, stdout=printed, stderr=subprocess.DEVNULL, timeout=5,
            ).returncode
        except subprocess.TimeoutExpired:
            return None


def text(path):
    with open(path, "rb") as f:
        return f.read()


class Peer:
    """A radio block centre that takes one connection, keeps what comes, and closes behind the first octets."""

    def __init__(self):
        self.listener = socket.socket()
        self.listener.bind(("127.0.0.1", 0))
        self.listener.listen()
        self.listener.settimeout(20)
        self.port = self.listener.getsockname()[1]
        self.got = b""
        self.thread = threading.Thread(target=self.take, daemon=True)
        self.thread.start()

    def take(self):
        try:
            line, _ = self.listener.accept()
        except OSError:
            return
        line.settimeout(10)
        self.got = line.recv(4096)
        line.settimeout(0.3)
        try:
            while more := line.recv(4096):
                self.got += more
        except OSError:
            pass
        line.close()

    def end(self):
        """What came. Where nobody connects, nothing."""
        self.listener.settimeout(0.01)
        self.listener.close()
        self.thread.join(0.5)
        return self.got


subsets = [s for n in range(4) for s in itertools.combinations((0, 1, 2), n)]
with tempfile.TemporaryDirectory() as work:
    def path(name):
        return os.path.join(work, name)

    keys = os.path.join(examples, "recorded-session.keys")
    out = path("out")
    # A file that would hold up whoever opens it: nothing writes to it.
    never = path("never")
    os.mkfifo(never)
    COMMANDS = {
        "drill": ["drill", os.path.join(examples, "set-up.drill")],
        "bits": ["bits", os.path.join(examples, "recorded-line.bits")],
        "migrate": ["migrate", keys],
        "replay": ["replay", keys, os.path.join(examples, "recorded-session.trace")],
        "audit": ["audit", keys, os.path.join(examples, "recorded-link.tap")],
        "bulk": ["bulk", "1", "2"],
        "serve": ["serve", keys, "127.0.0.1:0", "9", "0"],
        "no command": ["help"],
    }
    for name, words in COMMANDS.items():
        whole = run((), words, out)
        wanted = text(out)
        check(whole == (1 if name == "no command" else 0) and wanted != b"", f"{name} with all streams: {whole}")
        for closed in subsets:
            status = run(closed, words, out)
            if 1 in closed:
                check(status == 5 and text(out) == b"", f"{name} without {closed}: {status}")
            else:
                check(status == whole and text(out) == wanted, f"{name} without {closed}: {status}")
    # Without the standard output no file is read: one that can't be would hold it up.
    for words in (["drill", never], ["bits", never], ["migrate", never], ["replay", never, never], ["audit", never, never], ["serve", never, "127.0.0.1:0", "9", "0"]):
        for closed in subsets:
            if 1 in closed:
                check(run(closed, words, out) == 5, f"{words[0]} reads no file without {closed}")
    for closed in subsets:
        peer = Peer()
        status = run(closed, ["call", keys, f"127.0.0.1:{peer.port}", "5", "9", "1000"], out)
        got = peer.end()
        if 1 in closed:
            check(status == 5 and got == b"", f"call without {closed}: {status}, the peer got {got[:60]}")
        else:
            sent = "".join(re.findall(r"^< 1 octets ([0-9a-f]+)$", text(out).decode(), re.M))
            check(status == 0 and got != b"" and got.hex() == sent, f"call without {closed}: {status}, the peer got {got[:60]}, the recording has {sent[:60]}")
print(f"{passed} passed, {failed} failed")
sys.exit(1 if failed or not passed else 0)
