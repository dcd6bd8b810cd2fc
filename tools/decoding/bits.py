"""What `euroradio bits` prints of a recorded synchronous line: `frame ADDRESS BODY` of each intact frame, a word for each other one, and a closing line.

It doesn't tell when a frame came. The frames of both directions are put into an order that their numbers allow (ISO/IEC 13239): N(R) counts I frames that came
before, a UA or DM answers a command, and nothing but SABM goes before the UA.
"""
import re

from . import controls, framing, sources

OTHERS = re.compile(r"aborted|long|short|badfcs|ragged [0-9]+")
CLOSING = re.compile(r"bits ([0-9]+) frames ([0-9]+)")
FRAME = re.compile(r"frame ([0-9a-f]{2}) ((?:[0-9a-f]{2})+)")


class _Side:
    """What a side sent so far: its I frames that are new, those of the other side that it acknowledged, its commands SABM and DISC, and its answers to such."""

    def __init__(self):
        self.sent = self.heard = self.commands = self.answers = 0
        self.is_set_up = True

    def wanted(self, control):
        """How many I frames of the other side this frame acknowledges."""
        return self.heard if control.receive is None else self.heard + (control.receive - self.heard) % 8

    def may_send(self, control, other):
        if control is None:
            return True
        if control.name in ("UA", "DM"):
            return other.commands > self.answers
        return self.wanted(control) <= other.sent and (self.is_set_up or control.name == "SABM")

    def send(self, control, other):
        if control is None:
            return
        self.heard = self.wanted(control)
        if control.name == "I" and control.send == self.sent % 8:
            self.sent += 1
        self.commands += control.name in ("SABM", "DISC")
        if control.name == "SABM":
            self.is_set_up = False
        elif control.name in ("UA", "DM"):
            self.answers = other.commands
            if not other.is_set_up:
                self.sent = self.heard = other.sent = other.heard = 0
            other.is_set_up = True


def in_order(frames):
    """(side, frame) of the frames of both sides, each address and body, in an order that their numbers allow; e first where both may send."""
    sides, places = {side: _Side() for side in "er"}, {"e": 0, "r": 0}
    while any(places[side] < len(frames[side]) for side in "er"):
        left = [side for side in "er" if places[side] < len(frames[side])]
        heads = {side: controls.read_control(frames[side][places[side]][1:]) for side in left}
        able = [side for side in left if sides[side].may_send(heads[side], sides[sources.OTHER[side]])]
        side = (able or left)[0]
        sides[side].send(heads[side], sides[sources.OTHER[side]])
        yield side, frames[side][places[side]]
        places[side] += 1


def _frames(name, data, told):
    """The intact frames, each address and body, of a file that was printed. What is no line of it is told."""
    frames, closed = [], False
    for number, line in enumerate(data.decode("latin-1").splitlines(), 1):
        frame, closing = FRAME.fullmatch(line), CLOSING.fullmatch(line)
        if closed:
            told.append(f"{name}: line {number}: behind the closing line")
        elif frame:
            frames.append(bytes.fromhex(frame[1] + frame[2]))
        elif closing:
            closed = True
            if int(closing[2]) != len(frames):
                told.append(f"{name}: line {number}: {closing[2]} frames, where {len(frames)} are told")
        elif not OTHERS.fullmatch(line):
            told.append(f"{name}: line {number}: no line of what `euroradio bits` prints: {line[:40]}")
    if not closed:
        told.append(f"{name}: no closing line, so it is cut")
    return frames


def links_of(engine, rbc):
    """The link of both directions, each (name, octets) of a file, its frames spelled anew; and what couldn't be read."""
    told, link = [], sources.Link("link", 1)
    frames = {side: _frames(name, data, told) for side, (name, data) in (("e", engine), ("r", rbc))}
    link.items = [sources.Item(0, sources.OCTETS, side, "frame", (), framing.spelled(frame)) for side, frame in in_order(frames)]
    return [link], told
