"""A radio block centre for the trains of all sites, over a broker, to which an mqtt_bridge.py beside each loop speaks: mqtt_centre.py HOST:PORT.

It greets each train, and answers each position report with a movement authority. There is one such centre. Where it ends, the broker keeps for ten minutes what
is told, and a new one goes on there; what the old one heard last it may hear again. Then the broker says that it is gone, and the bridges read no more until one
is there.
"""
import sys
import time

from mqtt_bridge import CENTRE, MOST_LINES
from mqtt_broker import PAUSE, SESSION, Broker, wait

REPORT, AUTHORITY = b"position-report-", b"movement-authority-"


class Centre:
    def __init__(self, address):
        self.again, self.due = [], 0
        self.says = Broker("centre-says", address)
        self.hears = Broker("centre-hears", address, ("euroradio/+/told/#",), self.heard)
        self.hears.leave(CENTRE, "gone", SESSION, retain=True)
        self.hears.client.on_subscribe = lambda *_: self.says.say(CENTRE, "here", retain=True)

    def send(self, train, text):
        self.says.say("/".join(["euroradio", train[0], "asked", *train[1:]]), f"send {text}")

    def heard(self, levels, text):
        (_, site, _, *connection), (kind, *rest) = levels, text.split(" ")
        train = (site, *connection)
        if kind == "connected":
            self.send(train, f"welcome-train-{rest[0]}".encode().hex())
        elif kind == "message" and (said := bytes.fromhex(rest[0])).startswith(REPORT):
            self.send(train, (AUTHORITY + said[len(REPORT):]).hex())
        elif kind == "refused" and rest[1] == "full":
            self.again.append((train, rest[0]))
        elif kind in ("released", "gone"):
            self.again = [waits for waits in self.again if waits[0] != train]
        if kind != "message":
            print(kind, "/".join(train), *rest, flush=True)

    def turn(self):
        self.hears.listens = len(self.says.waiting) < MOST_LINES
        wait((self.says, self.hears), [], [])
        if self.again and time.monotonic() >= self.due:
            self.due = time.monotonic() + PAUSE
            again, self.again = self.again, []
            for train, text in again:
                self.send(train, text)


if __name__ == "__main__":
    centre = Centre(*sys.argv[1:])
    while True:
        centre.turn()
