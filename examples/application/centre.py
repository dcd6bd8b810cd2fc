"""A radio block centre as the application of a loop, which listens at a file name: centre.py APPLICATION.

It greets each train, answers each position report with a movement authority, passes `keys` and `counts` of its standard input on, and drains at SIGTERM.
"""
import os
import select
import signal
import socket
import sys
import time

REPORT, AUTHORITY = b"position-report-", b"movement-authority-"
PAUSE = 0.2


class Centre:
    def __init__(self, path):
        self.path, self.draining, self.inputs = path, False, [0]

    def say(self, text):
        self.out += text.encode() + b"\n"

    def heard(self, kind, conn, *rest):
        if kind == "connected":
            self.say(f"send {conn} {f'welcome-train-{rest[0]}'.encode().hex()}")
        elif kind == "message" and (text := bytes.fromhex(rest[0])).startswith(REPORT):
            self.say(f"send {conn} {(AUTHORITY + text[len(REPORT):]).hex()}")
        elif kind == "refused" and rest[1] == "full":
            self.again.append((conn, rest[0]))
        elif kind in ("released", "gone"):
            self.again = [waits for waits in self.again if waits[0] != conn]
        if kind != "message":
            print(kind, conn, *rest, flush=True)

    def repeat(self):
        again, self.again = self.again, []
        for conn, text in again:
            self.say(f"send {conn} {text}")

    def serve(self):
        """One attachment, until euroradio closes it. It reads while it writes: who only writes waits for euroradio, which waits for who doesn't read."""
        self.out, self.again, held, asked = bytearray(), [], b"", False
        with socket.socket(socket.AF_UNIX) as line:
            try:
                line.connect(self.path)
            except OSError:
                time.sleep(PAUSE)
                return
            line.setblocking(False)
            while True:
                if self.draining and not asked:
                    asked = True
                    self.say("drain")
                readable, writable, _ = select.select([line] + self.inputs, [line] if self.out else [], [], PAUSE)
                try:
                    if writable:
                        del self.out[:line.send(self.out)]
                    octets = line.recv(65536) if line in readable else None
                except OSError:
                    return
                if octets == b"":
                    return
                *lines, held = (held + (octets or b"")).split(b"\n")
                for text in lines:
                    self.heard(*text.decode().split(" "))
                if 0 in readable:
                    words = os.read(0, 4096).decode().split()
                    self.inputs = self.inputs if words else []
                    for word in words:
                        self.say(word)
                if not readable and not writable:
                    self.repeat()


centre = Centre(sys.argv[1])
signal.signal(signal.SIGTERM, lambda *_: setattr(centre, "draining", True))
while not centre.draining:
    centre.serve()
