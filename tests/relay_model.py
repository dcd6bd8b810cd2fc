"""What a relay carries, written apart from the program: a function of its script and of the octets that came from a side. And what a relay printed, held against it.

Units, kinds and lines of a script are those of docs/FORMATS.md; frames, controls and TPDUs are read by the laboratory's decoder.
"""
import os
import re
import sys
from dataclasses import dataclass, field
from typing import Dict, List

sys.dont_write_bytecode = True
sys.path.insert(0, os.path.join(os.path.dirname(os.path.dirname(os.path.abspath(__file__))), "tools"))

from decoding import controls, framing, transport  # noqa: E402
from decoding.faults import Fault  # noqa: E402

FLAG = framing.FLAG
MOST_HELD = 4096
FRAMES = ("i", "rr", "rnr", "rej", "srej", "sabm", "ua", "disc", "dm", "frmr")
TPDUS = ("cr", "cc", "dr", "dc", "dt", "ak", "er")
KINDS = ("any", "bad", *FRAMES, "other", *TPDUS)
# What is behind the kind and the number in a line of each change.
CHANGES = {"lose": "", "repeat": "", "alter": "dx", "put": "x", "delay": "d", "close": ""}
OTHER = {"e": "r", "r": "e"}


@dataclass(frozen=True)
class Line:
    """A line of a script: what it does, and to which unit of which side."""

    change: str
    side: str
    kind: str
    number: int
    arguments: tuple = ()

    def __str__(self):
        words = [argument.hex() if isinstance(argument, bytes) else str(argument) for argument in self.arguments]
        return " ".join([self.change, self.side, self.kind, str(self.number)] + [word or "-" for word in words])


@dataclass(frozen=True)
class Load:
    """What is given for a part of what came: octets, how many milliseconds later, and whether the connection is closed behind them."""

    octets: bytes
    delay: int = 0
    closes: bool = False


def read_line(text):
    """A line of a script behind its header. Raises ValueError."""
    change, side, kind, number, *words = text.split()
    if side not in OTHER or kind not in KINDS or not re.fullmatch("[1-9][0-9]*", number) or len(words) != len(CHANGES[change]):
        raise ValueError(f"no line of a script: {text}")
    read = {"d": int, "x": lambda word: b"" if word == "-" else bytes.fromhex(word)}
    return Line(change, side, kind, int(number), tuple(read[form](word) for form, word in zip(CHANGES[change], words)))


def read_script(text):
    """The lines of a script. Raises ValueError."""
    lines = [line for line in text.split("\n") if line.split() and not line.startswith("#")]
    if lines[0].split() != ["relay", "1"]:
        raise ValueError("no header of a script")
    return [read_line(line) for line in lines[1:]]


class Cutter:
    """Cuts what a side sends into units and what is of none, however it comes in pieces. `held` is what may become a unit."""

    def __init__(self):
        self.held = b""
        self.is_begun = self.has_flag = self.is_overlong = False

    def feed(self, octets):
        """(whether it is a unit, octets) of each part that is held no longer. What is of no unit may be cut in any way."""
        parts = []
        for octet in octets:
            parts += self._turn(bytes([octet]))
        return parts

    def _turn(self, octet):
        is_flag = octet[0] == FLAG
        if self.is_overlong or not self.has_flag and not is_flag:
            self.is_overlong = self.is_overlong and not is_flag
            return [(False, octet)]
        self.has_flag = True
        whole, self.held = self.held + octet, b""
        if is_flag and self.is_begun:
            self.is_begun = False
            return [(True, whole)]
        self.is_begun = not is_flag
        if len(whole) == MOST_HELD:
            self.is_begun, self.is_overlong = False, True
            return [(False, whole)]
        self.held = whole
        return []


def kinds_of(unit):
    """All kinds of a unit."""
    frames = framing.frames_of(bytes([FLAG]) + unit)
    if not frames or not frames[0].intact:
        return {"any", "bad"}
    control = controls.read_control(frames[0].body)
    name = control.name.lower() if control else "other"
    if name not in FRAMES:
        return {"any", "other"}
    return {"any", name} | (_kind_of_tpdu(frames[0].body[1:]) if name == "i" else set())


def _kind_of_tpdu(information):
    if information[:2] != b"\x01\x00":
        return set()
    try:
        return {transport.read_tpdu(information[2:]).kind.lower()}
    except Fault:
        return set()


def changed(line, unit, load):
    """What a line makes of what is given so far for a unit."""
    octets, delay, closes = load.octets, load.delay, load.closes
    if line.change == "lose":
        octets = bytes([FLAG])
    elif line.change == "repeat":
        octets += unit
    elif line.change == "put":
        octets = line.arguments[0] + octets
    elif line.change == "alter":
        place, mask = line.arguments
        octets = octets[:place - 1] + bytes(octet ^ mask[0] for octet in octets[place - 1:place]) + octets[place:]
    elif line.change == "delay":
        delay += line.arguments[0]
    return Load(octets, delay, closes or line.change == "close")


class Carrier:
    """What is given of a side's octets by a script, however they come in pieces. `used` has the lines that named a unit."""

    def __init__(self, script, side):
        self.lines = [line for line in script if line.side == side]
        self.cutter, self.counts, self.used = Cutter(), dict.fromkeys(KINDS, 0), set()
        self.is_closed = False

    def take(self, octets):
        """What is given of more octets, in order; nothing behind a load that closes."""
        loads = []
        for is_unit, part in self.cutter.feed(octets):
            if self.is_closed:
                break
            loads.append(self._load(part) if is_unit else Load(part))
            self.is_closed = loads[-1].closes
        return loads

    def end(self):
        """What is given of what is held, where the side sends no more."""
        held, self.cutter.held = self.cutter.held, b""
        return [Load(held)] if held and not self.is_closed else []

    def _load(self, unit):
        kinds = kinds_of(unit)
        for kind in kinds:
            self.counts[kind] += 1
        load = Load(unit)
        for line in self.lines:
            if line.kind in kinds and self.counts[line.kind] == line.number:
                self.used.add(line)
                load = changed(line, unit, load)
        return load


def carried(script, side, octets):
    """All that is given of what came from a side that then ended."""
    carrier = Carrier(script, side)
    return b"".join(load.octets for load in carrier.take(octets) + carrier.end())


# ---- what a relay printed


@dataclass
class Told:
    """What was printed of one connection: for each side what came and what was given, each (moment, octets) by line; which sides ended; whether it was closed."""

    came: Dict[str, list] = field(default_factory=lambda: {"e": [], "r": []})
    given: Dict[str, list] = field(default_factory=lambda: {"e": [], "r": []})
    ended: List[str] = field(default_factory=list)
    is_closed: bool = False


@dataclass
class Behind:
    """A side of a connection as far as the lines were read: what its carrier gave, each load with the moment at which it is due, and what was given of it."""

    carrier: Carrier
    due: List[tuple] = field(default_factory=list)
    loads: bytes = b""
    given: bytes = b""

    def come(self, moment, loads):
        newest = self.due[-1][0] if self.due else 0
        for load in loads:
            newest = max(newest, moment + load.delay)
            self.due.append((newest, len(self.loads) + len(load.octets)))
            self.loads += load.octets


class Printed:
    """Reads what a relay printed under a script. `faults` has what isn't as it must be, `connections` what was told by number."""

    def __init__(self, script, text):
        self.script, self.connections, self.faults, self.sides = script, {}, [], {}
        self.newest = 0
        lines = text.split("\n")
        if lines[0] != "relay 1" or lines[-1] != "":
            self.faults.append("no header, or a last line that isn't whole")
        for number, line in enumerate(lines[1:-1], 2):
            why = self._line(line.split(" "))
            if why:
                self.faults.append(f"line {number}: {why}: {line[:80]}")
        for (conn, side), behind in self.sides.items():
            self._at_the_end(conn, side, behind)

    def _line(self, words):
        if words[0] not in (">", "<") or len(words) not in (4, 5) or not words[1].isdigit() or not words[2].isdigit():
            return "no line that a relay prints"
        moment, conn = int(words[1]), int(words[2])
        if moment < self.newest:
            return "a moment that goes back"
        self.newest = moment
        if words[0] == ">" and words[3:] == ["open"]:
            return self._open(conn)
        told = self.connections.get(conn)
        if told is None or told.is_closed:
            return "a connection that isn't open"
        if words[0] == "<" and words[3:] == ["closed"]:
            told.is_closed = True
            return None
        what, word = words[3], words[-1]
        if words[0] == ">" and what == "end" and word in OTHER:
            return self._end(conn, word, moment)
        if what not in OTHER or not re.fullmatch("([0-9a-f]{2})+", word):
            return "no side and octets"
        return (self._came if words[0] == ">" else self._given)(conn, what, moment, bytes.fromhex(word))

    def _open(self, conn):
        if conn != len(self.connections) + 1:
            return "not the next number"
        self.connections[conn] = Told()
        for side in OTHER:
            self.sides[conn, side] = Behind(Carrier(self.script, side))
        return None

    def _came(self, conn, side, moment, octets):
        """A line is one unit, or of none and of at most 4,096 octets; what is held comes in a line once it is a unit or the side ends."""
        told, behind = self.connections[conn], self.sides[conn, side]
        if told.ended:
            return "octets behind an end"
        told.came[side].append((moment, octets))
        carrier, was_held = behind.carrier, behind.carrier.cutter.held
        before = carrier.counts["any"]
        loads = carrier.take(octets)
        behind.come(moment, loads)
        if was_held or carrier.counts["any"] > before and len(loads) > 1:
            return "a unit that isn't alone in its line"
        return "more than 4,096 octets" if len(octets) > MOST_HELD else None

    def _end(self, conn, side, moment):
        told, behind = self.connections[conn], self.sides[conn, side]
        told.ended.append(side)
        behind.come(moment, behind.carrier.end())
        return None

    def _given(self, conn, side, moment, octets):
        """What is given is at each moment a beginning of what the carrier gave, and none of it before it is due."""
        behind = self.sides[conn, side]
        self.connections[conn].given[side].append((moment, octets))
        behind.given += octets
        if not (behind.loads + behind.carrier.cutter.held).startswith(behind.given):
            return "given is what isn't carried"
        early = [due for due, end in behind.due if end <= len(behind.given) and due > moment]
        return f"given {early[0] - moment} ms before it is due" if early else None

    def _at_the_end(self, conn, side, behind):
        """Where a connection is closed all is given that is due, unless the other side ended first or a line closed it."""
        told = self.connections[conn]
        is_cut = told.ended[:1] == [OTHER[side]] or any(end.carrier.is_closed for key, end in self.sides.items() if key[0] == conn)
        if told.is_closed and not is_cut and behind.given != behind.loads:
            self.faults.append(f"connection {conn}: of {side} {len(behind.loads) - len(behind.given)} octets were never given")

    def used(self):
        """The lines of the script that named a unit of any connection."""
        return set().union(*(behind.carrier.used for behind in self.sides.values()))
