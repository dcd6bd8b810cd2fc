"""What the tests over loopback sockets share: the key file, a free port, and what a recording tells of a connection."""
import random
import socket
import subprocess
import sys
import threading
import time

REPORTS = [f"position-report-{n:08}".encode().hex() for n in (1, 2, 3)]
KEYS = """version = 1

[[key]]
engine = 5
rbc = 9
kmac = "0123456789abcdef23456789abcdef01456789abcdef0123"
"""


# Below those that a system gives to whoever connects: between a choice and the listener's bind no connection takes one, and who calls one at which nobody listens doesn't meet itself.
PORTS = range(10_000, 32_000)
_given, _giving = set(), threading.Lock()


def free_port():
    """A port of the loopback address that nobody has, and that this process was given never before: its lanes meet at none."""
    with _giving:
        while True:
            port = random.SystemRandom().choice(PORTS)
            with socket.socket() as tried:
                try:
                    tried.bind(("127.0.0.1", port))
                except OSError:
                    continue
            if port not in _given:
                _given.add(port)
                return port


def free_ports(count):
    return [free_port() for _ in range(count)]


def connected(port):
    return socket.create_connection(("127.0.0.1", port), timeout=10)


def is_listened_at(port, seconds=10):
    """Whether somebody listens at this port of the loopback address, at the latest so many seconds from now. Nobody is connected to."""
    listens = f" 0100007F:{port:04X} 00000000:0000 0A "
    for _ in range(seconds * 20):
        with open("/proc/net/tcp") as sockets:
            if any(listens in line for line in sockets):
                return True
        time.sleep(0.05)
    return False


def events_of(text, conn):
    """What a connection's lines tell, octets, moments and random numbers left out."""
    told = []
    for line in text.splitlines():
        words = line.split()
        if words[:1] == [">"] and words[2] == conn and words[3] not in ("octets", "tick"):
            told.append(" ".join(words[3:4] + ([] if words[3] in ("call", "answer") else words[4:])))
        if words[:1] == ["<"] and words[1] == conn and words[2] != "octets":
            told.append(" ".join(words[2:]))
    return told


def is_train(told):
    """A whole session of a train: connected, three reports sent, each echoed, taken in order, then the user's release."""
    taken = [w.split()[1] for w in told if w.startswith("taken ")]
    sent = [w.split()[1] for w in told if w.startswith("send ")]
    return "connected 9" in told and sent == REPORTS and taken == REPORTS and told[-1] == "released 0 0 local"


def parts_of(recording, folder):
    """The parts of a recording by its connections, files of this folder, and what tools/recording tells."""
    with open(recording, "rb") as text:
        run = subprocess.run([sys.executable, "tools/recording", "--folder", folder], stdin=text, capture_output=True, check=False)
    return run.stdout.decode().splitlines(), run.stderr.decode().splitlines()


def replays_to_itself(program, keys, parts):
    """Whether a replay of each of these files prints it again."""
    for part in parts:
        run = subprocess.run([program, "replay", keys, part], capture_output=True, timeout=120, check=False)
        with open(part, "rb") as text:
            if run.returncode != 0 or run.stdout != text.read():
                print(f"{part}: status {run.returncode}")
                return False
    return True
