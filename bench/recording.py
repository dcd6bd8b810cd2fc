"""For recording.sh beside it: recording.py PROGRAM."""

import os
import socket
import subprocess
import sys
import tempfile
import time

sys.dont_write_bytecode = True
TOP = os.path.dirname(os.path.dirname(os.path.abspath(__file__)))
sys.path[:0] = [os.path.join(TOP, "tests"), os.path.join(TOP, "tools")]

from decoding import framing  # noqa: E402
from serving import KEYS, free_port, is_listened_at  # noqa: E402
from train import Train  # noqa: E402

program = os.path.abspath(sys.argv[1])
KMAC = KEYS.split('"')[1]
SABM = bytes.fromhex("7e013febdf7e")
REPORTS = 200


class Server:
    def __init__(self, work):
        self.keys, self.recording, self.port = os.path.join(work, "keys"), os.path.join(work, "recording"), free_port()
        with open(self.keys, "w") as file:
            file.write(KEYS)
        with open(self.recording, "wb") as out:
            self.process = subprocess.Popen([program, "serve", self.keys, f"127.0.0.1:{self.port}", "9", "1000000000"], stdout=out, stderr=subprocess.DEVNULL)
        if not is_listened_at(self.port):
            sys.exit("serve doesn't listen")
        self.was = self.settled()

    def settled(self):
        """Octets of the recording, once it stands still."""
        was = -1
        while was != os.path.getsize(self.recording):
            was = os.path.getsize(self.recording)
            time.sleep(0.4)
        return was

    def grown(self):
        was, self.was = self.was, self.settled()
        return self.was - was

    def dial(self):
        return socket.create_connection(("127.0.0.1", self.port))


def connect(server):
    """A train that is connected, and its line."""
    train, line = Train(5, 9, KMAC, os.urandom), server.dial()
    line.sendall(train.start())
    while train.state != "connected":
        line.sendall(train.receive(line.recv(65536)))
    return train, line


def report(train, line, length):
    """A report of so many octets is said back."""
    count = len(train.heard)
    line.sendall(train.say(os.urandom(length)))
    while len(train.heard) == count:
        line.sendall(train.receive(line.recv(65536)))


def stranger(server, name, octets, piece=4096, pause=0.001):
    """What octets cost that a stranger sends in such pieces, who reads all and then leaves."""
    with server.dial() as line:
        line.setsockopt(socket.IPPROTO_TCP, socket.TCP_NODELAY, 1)
        for at in range(0, len(octets), piece):
            line.settimeout(30)
            line.sendall(octets[at:at + piece])
            line.settimeout(pause)
            try:
                line.recv(65536)
            except OSError:
                pass
        line.settimeout(60)
        line.shutdown(socket.SHUT_WR)
        while line.recv(65536):
            pass
    was, grown = server.was, server.grown()
    with open(server.recording, "rb") as text:
        text.seek(was)
        heard = sum(len(line.split()[-1]) // 2 for line in text.read(grown).splitlines() if line.startswith(b"> ") and b" octets " in line)
    rest = "" if heard == len(octets) else f" ({heard} of {len(octets)} octets were heard before the line was closed)"
    print(f"a stranger's {name}: {grown / heard:.1f} octets for each octet{rest}", flush=True)


def main():
    with tempfile.TemporaryDirectory() as work:
        server = Server(work)
        print(f"the header: {server.was} octets")
        for _ in range(20):
            server.dial().close()
        print(f"a connection that sends nothing and leaves: {server.grown() / 20:.0f} octets")
        train, line = connect(server)
        print(f"a train that is connected: {server.grown()} octets")
        for length in (24, 100):
            for _ in range(REPORTS):
                report(train, line, length)
            print(f"a message of {length} octets and its echo: {server.grown() / REPORTS:.0f} octets")
        line.sendall(train.release())
        time.sleep(0.2)
        line.close()
        print(f"its release: {server.grown()} octets")
        stranger(server, "flags", b"\x7e" * 200_000)
        stranger(server, "random octets", os.urandom(200_000))
        stranger(server, "good frames that mean nothing", framing.spelled(bytes([5, 0x7F])) * 5_000)
        stranger(server, "set-up frames", SABM * 2_000)
        stranger(server, "octets before any flag, one by one", b"x" * 200, 1, 0.02)
        server.process.terminate()
        server.process.wait()


main()
