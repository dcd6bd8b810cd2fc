"""A bridge between a loop, which listens at a file name, and a broker: mqtt_bridge.py APPLICATION HOST:PORT SITE.

One stands beside each `serve`, with a SITE of its own, a word without / + and #. Topics, and the texts there:

  euroradio/SITE/told/RUN/CONNECTION/PEER    connected PEER; message HEX; refused HEX WHY..; released R X local or peer; gone
  euroradio/SITE/told                        counts ..; keys ..; fault ..; attached RUN; parted RUN; and from a broker that lost the bridge, away
  euroradio/SITE/asked/RUN/CONNECTION/PEER   send HEX; release X
  euroradio/SITE/asked                       drain; keys; counts
  euroradio/centre                           here, or gone: whether anybody hears what is told; retained

RUN is drawn each time the bridge attaches, and PEER is the train's ETCS number, or - where it never connected. What is asked of another train than the
connection's, or of a run before, is answered `gone` and reaches no train. What is none of these texts is answered `fault`.

The bridge attaches, and reads its socket, while a centre is there, so that no message goes to nobody. While the broker is away 1,000 lines wait here; then the
socket isn't read, the loop takes no more messages, and the trains get no credit. So nothing is lost where the broker keeps its sessions and bounds no queue. The
bridge comes back to the loop and to the broker by itself. Where it is killed, what it holds is lost.
"""
import collections
import re
import secrets
import socket
import sys
import time

from mqtt_broker import PAUSE, Broker, wait

MOST_LINES, MOST_OCTETS, MOST_LEFT = 1000, 262_144, 256
CENTRE = "euroradio/centre"
OF_CONNECTION, OF_LOOP = re.compile(r"send (-|[0-9a-fA-F]+)|release [0-9]+"), re.compile("drain|keys|counts")


class Bridge:
    def __init__(self, path, address, site):
        self.path, self.told, self.centre, self.line, self.due = path, f"euroradio/{site}/told", False, None, 0
        # Names of its own: what was asked of a bridge before it isn't for it.
        name = f"{site}-{secrets.token_hex(4)}"
        # Two connections: what is told goes on where nothing that is asked is heard, since a loop that isn't read doesn't read.
        self.tells = Broker(f"{name}-tells", address)
        self.tells.leave(self.told, "away")
        self.asks = Broker(f"{name}-asks", address, (f"euroradio/{site}/asked/#", CENTRE), self.asked)

    def attach(self):
        self.due = time.monotonic() + PAUSE
        line = socket.socket(socket.AF_UNIX)
        try:
            line.connect(self.path)
        except OSError:
            line.close()
            return
        line.setblocking(False)
        self.line, self.run, self.peers, self.left = line, secrets.token_hex(4), {}, collections.deque()
        self.lines, self.held, self.out = collections.deque(), b"", bytearray()
        self.tells.say(self.told, f"attached {self.run}")

    def part(self):
        self.line.close()
        self.line = None
        self.tells.say(self.told, f"parted {self.run}")

    def tell(self, kind, *rest):
        if kind not in ("connected", "message", "refused", "released", "gone"):
            self.tells.say(self.told, " ".join([kind, *rest]))
            return
        conn, *rest = rest
        if kind == "connected":
            self.peers[conn] = rest[0]
        self.tells.say(f"{self.told}/{self.run}/{conn}/{self.peers.get(conn, '-')}", " ".join([kind, *rest]))
        if kind == "released":
            # Messages that waited may still be told behind it.
            self.left.append(conn)
            if len(self.left) > MOST_LEFT:
                self.peers.pop(self.left.popleft(), None)

    def asked(self, levels, text):
        where = levels[3:]
        if len(levels) == 2:
            self.centre = text == "here"
        elif len(where) not in (0, 3) or not (OF_CONNECTION if where else OF_LOOP).fullmatch(text):
            self.tells.say("/".join([self.told, *where]), "fault")
        elif self.line is None or where and (where[0] != self.run or self.peers.get(where[1]) != where[2]):
            self.tells.say("/".join([self.told, *where]), "gone")
        else:
            first, *rest = text.split(" ")
            self.out += " ".join([first, *where[1:2], *rest]).encode() + b"\n"

    def turn(self):
        room = len(self.tells.waiting) < MOST_LINES
        if self.line is None and room and self.centre and time.monotonic() >= self.due:
            self.attach()
        line = self.line
        self.asks.listens = room and (line is None or len(self.out) < MOST_OCTETS)
        # A broker that ends says that the centre is gone, too: while it is away lines are read as if it weren't.
        reads = line and room and not self.lines and (self.centre or not self.asks.is_there())
        reading, writing = [line] if reads else [], [line] if line and self.out else []
        readable, writable = wait((self.tells, self.asks), reading, writing)
        if line is None:
            return
        try:
            if line in writable:
                del self.out[:line.send(self.out)]
        except OSError:
            # The loop is gone, but what it told last can still be read.
            self.out.clear()
        try:
            octets = line.recv(65536) if line in readable else None
        except OSError:
            octets = b""
        if octets:
            *lines, self.held = (self.held + octets).split(b"\n")
            self.lines.extend(lines)
        while self.lines and len(self.tells.waiting) < MOST_LINES:
            self.tell(*self.lines.popleft().decode().split(" "))
        if octets == b"":
            self.part()


if __name__ == "__main__":
    bridge = Bridge(*sys.argv[1:])
    while True:
        bridge.turn()
