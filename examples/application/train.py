"""A train as the application of a loop, which listens at a file name: train.py APPLICATION [REPORTS].

It sends a position report, waits for the movement authority, sends the next, and leaves behind the last. Its status is 0 where each was answered.
"""
import socket
import sys
import time

REPORT, AUTHORITY = "position-report-{:08}", "movement-authority-{:08}"


class Train:
    def __init__(self, line, reports):
        self.line, self.reports, self.answered = line, reports, 0

    def say(self, text):
        try:
            self.line.sendall(text.encode() + b"\n")
        except OSError:
            # The loop is gone, but what it told last can still be read.
            pass

    def report(self, conn):
        self.say(f"send {conn} {REPORT.format(self.answered + 1).encode().hex()}")

    def heard(self, kind, conn, *rest):
        """Whether the train goes on."""
        print(kind, conn, *rest, flush=True)
        if kind == "connected":
            self.report(conn)
        elif kind == "message" and bytes.fromhex(rest[0]) == AUTHORITY.format(self.answered + 1).encode():
            self.answered += 1
            if self.answered == self.reports:
                self.say(f"release {conn} 0")
            else:
                self.report(conn)
        elif kind == "refused":
            time.sleep(0.2)
            self.say(f"send {conn} {rest[0]}")
        return kind not in ("released", "gone", "fault")


def attached(path):
    """The socket, once somebody listens there: within ten seconds."""
    for _ in range(50):
        line = socket.socket(socket.AF_UNIX)
        try:
            line.connect(path)
            return line
        except OSError:
            line.close()
            time.sleep(0.2)
    sys.exit(f"nobody listens at {path}")


train = Train(attached(sys.argv[1]), int(sys.argv[2]) if len(sys.argv) > 2 else 3)
for text in train.line.makefile():
    if not train.heard(*text.split()):
        break
sys.exit(train.answered != train.reports)
