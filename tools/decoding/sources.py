"""Texts in which frames of links are recorded: what a drill prints, a trace or recording, a tap, what a relay prints.

| Text | First line | Lines with octets |
|---|---|---|
| what a drill prints | `N S ..` | `N S frame HEX`, where the drill file has `set show 1`: S sent it |
| trace or recording | `trace 1 ..` | `> M C octets HEX`: the end of connection C got it at moment M; `< C octets HEX`: it sent it |
| tap | `tap 1` | `octets N S HEX`: S sent it and the other end got it |
| what a relay prints | `relay 1` | `> M N S HEX`: it came from S on connection N at moment M; `< M N S HEX`: it was given to the other end in its place |

A line that is none of its text's is named with its number, and reading goes on behind it; but where the first line shows no kind of text, or is a
faulty header of one, reading ends there. Words that are quoted have their control octets escaped.
"""
import binascii
from dataclasses import dataclass, field
from typing import Dict, List, Optional

from . import controls, framing

OCTETS = "octets"
EVENT = "event"
OUTCOME = "outcome"
OTHER = {"e": "r", "r": "e"}

DRILL, TRACE, TAP, RELAY = "drill", "trace", "tap", "relay"
LAST_MOMENT = 10 ** 15
# How captures of the formats pcapng and pcap begin.
CAPTURES = ("\n\r\r\n", "\xd4\xc3\xb2\xa1", "\xa1\xb2\xc3\xd4", "\x4d\x3c\xb2\xa1", "\xa1\xb2\x3c\x4d")
SETTINGS = ["window", "credit", "size", "t1", "n2", "setup"]

# The arguments of each line: d a decimal, s a side, x octets in hexadecimal, h the same of 8 octets; a word stands for itself.
EVENTS = {"call": "d d h", "answer": "d h", "octets": "x", "send": "x", "take": "", "release": "d", "tick": "", "ended": "", "fault": "",
          "stalled": "", "full": "d", "unserved": "d"}
OUTCOMES = {"connected": ["d"], "accepted": ["x"], "taken": ["x"], "none": [""], "octets": ["x"],
            "refused": ["released d d", "notconnected", "length d", "full d"], "released": ["d d local", "d d peer"]}
PRINTED = dict(OUTCOMES, frame=["x"], up=[""], empty=[""], short=["d"], connected=["d", "d forged"], accepted=["x", "x forged"])
del PRINTED["octets"]


class BadWord(ValueError):
    """A word or line that isn't in the grammar of its text."""


class NoHeader(BadWord):
    """The first line shows no kind of text, or is a faulty header."""


def printable(text):
    """A text in which what can't be printed, as control octets, is escaped."""
    return "".join(letter if letter.isprintable() else repr(letter)[1:-1] for letter in text)


@dataclass(frozen=True)
class BadLine:
    """A line that couldn't be read, or whose octets are no frames: its number, from 1, and why."""

    line: int
    why: str

    def __str__(self):
        return f"line {self.line}: {printable(self.why)}"


@dataclass(slots=True)
class Item:
    """One thing that happened on a link.

    `kind` is OCTETS (octets on the line, sent by `side`), EVENT (what was given to the end `side`) or OUTCOME (what the end `side` told, or,
    with no side, the line of the whole link). `word` is the line's first word, `text` it and all behind, `words` the arguments; `octets` are
    the line's octets, where it has some. `own` says in a trace that the connection's own end sent the octets; it is None elsewhere.
    """

    line: int
    kind: str
    side: Optional[str]
    word: str
    words: tuple = ()
    octets: bytes = b""
    moment: Optional[int] = None
    own: Optional[bool] = None

    @property
    def text(self):
        return " ".join((self.word,) + self.words)


@dataclass
class Link:
    """One link of a drill or tap, or one connection of a trace, with all that happened on it in order.

    `role` is the side of a connection's own end; `engine` and `rbc` are ETCS numbers where they are told; `moment` is that of a tap's link. A
    connection that is `away` was turned away: it got no end, and has no other line. A link that is `wired` is that of a real line, of level full.
    Of a connection that was relayed `items` has what the ends got, and `came` what came from them.
    """

    kind: str
    number: int
    items: List[Item] = field(default_factory=list)
    came: List[Item] = field(default_factory=list)
    role: Optional[str] = None
    engine: Optional[int] = None
    rbc: Optional[int] = None
    moment: Optional[int] = None
    up: bool = False
    away: bool = False
    wired: bool = False

    @property
    def name(self):
        return f"{self.kind} {self.number}"

    def numbers(self):
        """The ETCS numbers of engine and RBC, as far as the text tells them: as the link is opened, or as an end is connected with the other."""
        found = {"e": self.engine, "r": self.rbc}
        for item in self.items:
            if item.word == "connected" and found[OTHER[item.side]] is None:
                found[OTHER[item.side]] = int(item.words[0])
        return found["e"], found["r"]

    @property
    def level(self):
        """'safe' where octets are SaPDUs, 'link' where the stations' payloads are the user's own, else 'full'."""
        first = next((item.octets for item in self.items if item.kind == OCTETS), b"")
        if self.kind == "link" and not self.wired and first and first[0] != framing.FLAG and first[0] & 0xFE in (0x42, 0x24, 0x06, 0x12, 0x0A, 0x10):
            return "safe"
        return "link" if self.up else "full"


@dataclass
class Reading:
    """A text that was read: its kind (DRILL, TRACE, TAP, RELAY, or None where no line is one of these), its links in the order in which they come
    up, its settings where it tells them, the lines that speak of the whole text (`! overfull ..`), and its bad lines."""

    kind: Optional[str] = None
    links: List[Link] = field(default_factory=list)
    settings: Dict[str, int] = field(default_factory=dict)
    notes: List[Item] = field(default_factory=list)
    bad: List[BadLine] = field(default_factory=list)


def read(data):
    """Reads a text, octets or a string, as what its lines show it to be."""
    if isinstance(data, bytes):
        data = data.decode("latin-1")
    reader, reading = None, Reading()
    if data.startswith(CAPTURES):
        reading.bad.append(BadLine(1, "a capture; a text is wanted, and tools/tap makes a tap of it"))
        return reading
    for number, line in enumerate(data.split("\n"), 1):
        words = line.split(" ")
        words = [word for word in words if word]
        if not words or line.startswith("#"):
            continue
        try:
            if reader is None:
                reader = _reader_for(words, reading)
            reader.line(number, words)
        except NoHeader as why:
            reading.bad.append(BadLine(number, f"{why}; nothing behind it is read"))
            break
        except BadWord as why:
            reading.bad.append(BadLine(number, str(why)))
    if reader is not None:
        reader.end()
    elif not reading.bad:
        reading.bad.append(BadLine(1, "no line"))
    return reading


def _reader_for(words, reading):
    """The reader of the kind of text that this line begins."""
    if words[0] == "tap":
        return _TapReader(reading)
    if words[0] == "relay":
        return _RelayReader(reading)
    if words[0] == "trace" or words[0] in (">", "<"):
        return _TraceReader(reading)
    if words[0] == "!" or len(words) > 1 and words[0].isdigit() and words[1] in ("e", "r", "passes", "end"):
        return _DrillReader(reading)
    if words[0] == "drill":
        raise NoHeader("the steps of a drill; what `euroradio drill` prints of them is wanted")
    raise NoHeader(f"no line of a drill's text, a trace, a tap or what a relay prints: {words[0][:40]}")


def take_what_came(reading):
    """Of connections that were relayed takes what came from the ends in the place of what they got. Answers what is told where it can't."""
    if reading.kind != RELAY:
        return ["what was sent and what was got are told apart by a relay alone"] if reading.kind else []
    for link in reading.links:
        link.items = [item for item in link.items if item.kind != OCTETS] + link.came
        link.items.sort(key=lambda item: item.line)
    return []


def decimal(word, most=2 ** 64 - 1):
    if not (word.isascii() and word.isdigit()):
        raise BadWord(f"no decimal: {word[:40]}")
    if len(word) > 20 or int(word) > most:
        raise BadWord(f"a number above {most}: {word[:40]}")
    return int(word)


def side_of(word):
    if word not in ("e", "r"):
        raise BadWord(f"no side, e or r: {word[:40]}")
    return word


def octets_of(word):
    if word == "-":
        return b""
    try:
        return binascii.unhexlify(word)
    except (binascii.Error, ValueError):
        why = "an odd number of digits" if len(word) % 2 else "not hexadecimal"
        raise BadWord(f"{why}: {word[:40]}{'..' if len(word) > 40 else ''}") from None


def _arguments(forms, words):
    """The octets among these words, which have one of these forms."""
    name = words[0]
    for form in forms:
        letters = form.split()
        if len(letters) == len(words) - 1 and all(len(letter) == 1 or letter == word for letter, word in zip(letters, words[1:])):
            octets = b""
            for letter, word in zip(letters, words[1:]):
                if letter == "d":
                    decimal(word)
                elif letter in ("x", "h"):
                    octets = octets_of(word)
                    if letter == "h" and len(octets) != 8:
                        raise BadWord(f"not 16 digits: {word[:40]}")
            return octets
    raise BadWord(f"{name} with other words than it takes: {' '.join(words[1:])[:40]}")


def trace_header(words):
    """The settings that the first line of a trace tells, by their names."""
    if words[:2] != ["trace", "1"] or len(words) != 8:
        raise NoHeader("no header of a trace: `trace 1` and six numbers are wanted")
    try:
        return dict(zip(SETTINGS, map(decimal, words[2:])))
    except BadWord as why:
        raise NoHeader(f"no header of a trace: {why}") from None


@dataclass(frozen=True)
class TraceLine:
    """A line of a trace behind its header: an event at a moment, or an outcome, which has no moment of its own."""

    moment: Optional[int]
    conn: int
    word: str
    words: tuple
    octets: bytes


def trace_line(words):
    """What a line of a trace tells that begins with `>` or `<`."""
    is_event = words[0] == ">"
    at = 3 if is_event else 2
    kind, table = ("an event", EVENTS) if is_event else ("an outcome", OUTCOMES)
    if len(words) <= at:
        raise BadWord(f"{kind} without its word")
    if words[at] not in table:
        raise BadWord(f"no word of {kind}: {words[at][:40]}")
    moment = decimal(words[1], LAST_MOMENT) if is_event else None
    conn = decimal(words[at - 1])
    forms = [EVENTS[words[at]]] if is_event else OUTCOMES[words[at]]
    return TraceLine(moment, conn, words[at], tuple(words[at + 1:]), _arguments(forms, words[at:]))


class _Reader:
    """What the three readers share: the links by their numbers."""

    kind = "link"

    def __init__(self, reading):
        self.reading = reading
        self.by_number = {}
        self.begun = False

    def link(self, number):
        if number not in self.by_number:
            self.by_number[number] = Link(self.kind, number)
            self.reading.links.append(self.by_number[number])
        return self.by_number[number]

    def end(self):
        """What is to be done behind the last line."""


class _DrillReader(_Reader):
    def __init__(self, reading):
        super().__init__(reading)
        reading.kind = DRILL

    def line(self, number, words):
        if words[0] == "!":
            self.reading.notes.append(Item(number, OUTCOME, None, "!", tuple(words[1:])))
            return
        link = decimal(words[0])
        if len(words) < 2:
            raise BadWord("a line without its word")
        if words[1] in ("passes", "end"):
            _arguments({"passes": ["d"], "end": ["passes d waiting d d"]}[words[1]], words[1:])
            self.link(link).items.append(Item(number, OUTCOME, None, words[1], tuple(words[2:])))
            return
        side, name = side_of(words[1]), words[2] if len(words) > 2 else ""
        if name not in PRINTED:
            raise BadWord(f"no word that a drill prints: {name[:40]}")
        octets = _arguments(PRINTED[name], words[2:])
        link = self.link(link)
        if name == "frame":
            link.items.append(Item(number, OCTETS, side, "frame", (), octets))
            return
        link.up = link.up or name == "up"
        link.items.append(Item(number, OUTCOME, side, name, tuple(words[3:]), octets))


class _TraceReader(_Reader):
    kind = "connection"

    def __init__(self, reading):
        super().__init__(reading)
        reading.kind = TRACE
        self.moment = None
        self.unopened = []

    def line(self, number, words):
        if not self.begun:
            self.begun = True
            if self._header(words):
                return
        if words[0] in (">", "<"):
            self._told(number, words)
        elif words[0] == "!":
            self.reading.notes.append(Item(number, OUTCOME, None, "!", tuple(words[1:])))
        else:
            raise BadWord(f"no line of a trace: {words[0][:40]}")

    def _header(self, words):
        if words[0] == "trace":
            self.reading.settings = trace_header(words)
            return True
        return False

    def _told(self, number, words):
        told = trace_line(words)
        if told.moment is not None:
            self.moment = told.moment
        self._add(number, told.conn, told.moment is None, told.word, told.words, told.octets)

    def _add(self, number, conn, own, name, words, octets):
        fresh = conn not in self.by_number
        link = self.link(conn)
        if link.away:
            raise BadWord(f"connection {conn} was turned away")
        if name in ("call", "answer") and link.role is not None or name in ("full", "unserved") and not fresh:
            raise BadWord(f"connection {conn} is opened twice")
        if name in ("call", "answer"):
            link.role = "e" if name == "call" else "r"
            link.rbc = int(words[-2])
            link.engine = int(words[0]) if name == "call" else link.engine
        elif name in ("full", "unserved"):
            link.away = True
        elif fresh:
            self.unopened.append(link)
            self.reading.bad.append(BadLine(number, f"connection {conn} wasn't opened by call or answer; its end is taken from its frames"))
        on_line = name == "octets"
        side = link.role if own or not on_line else OTHER.get(link.role)
        kind = OCTETS if on_line else OUTCOME if own else EVENT
        link.items.append(Item(number, kind, side, name, () if on_line else words, octets, self.moment, own))

    def end(self):
        for link in self.unopened:
            link.role = link.role or _role_by_frames(link)
            for item in link.items:
                item.side = OTHER[link.role] if item.kind == OCTETS and not item.own else link.role


def _role_by_frames(link):
    """The side of a connection's own end, by the first frame that tells which station sent it; e where none does."""
    deframers = {True: framing.Deframer(), False: framing.Deframer()}
    for item in link.items:
        for frame in deframers[item.own].feed(item.octets) if item.kind == OCTETS else ():
            control = controls.read_control(frame.body) if frame.intact else None
            sender = controls.sender_by_address(frame.address, control) if control else None
            if sender is not None:
                return sender if item.own else OTHER[sender]
    return "e"


class _TapReader(_Reader):
    def __init__(self, reading):
        super().__init__(reading)
        reading.kind = TAP

    def line(self, number, words):
        if not self.begun:
            self.begun = True
            if words != ["tap", "1"]:
                raise NoHeader("no header of a tap: `tap 1` is wanted")
            return
        if words[0] == "link":
            self._open(words)
        elif words[0] == "octets":
            if len(words) != 4:
                raise BadWord("octets with other words than it takes: link, side and octets")
            self._octets(number, decimal(words[1]), side_of(words[2]), octets_of(words[3]))
        else:
            raise BadWord(f"no line of a tap: {words[0][:40]}")

    def _open(self, words):
        if len(words) != 5:
            raise BadWord("link with other words than it takes: link, engine, RBC and moment")
        number, engine, rbc = map(decimal, words[1:4])
        moment = decimal(words[4], LAST_MOMENT)
        if number in self.by_number and self.by_number[number].moment is not None:
            raise BadWord(f"link {number} is opened twice")
        link = self.link(number)
        link.engine, link.rbc, link.moment = engine, rbc, moment

    def _octets(self, number, link, side, octets):
        if link not in self.by_number:
            self.reading.bad.append(BadLine(number, f"link {link} wasn't opened by a line before"))
        self.link(link).items.append(Item(number, OCTETS, side, "octets", (), octets))


class _RelayReader(_Reader):
    """What a relay prints. Its ends are told by the sides, so a connection has no end of its own."""

    kind = "connection"

    def __init__(self, reading):
        super().__init__(reading)
        reading.kind = RELAY

    def line(self, number, words):
        if not self.begun:
            self.begun = True
            if words != ["relay", "1"]:
                raise NoHeader("no header of what a relay prints: `relay 1` is wanted; what it prints, and not its script, is read")
            return
        if words[0] not in (">", "<"):
            raise BadWord(f"no line that a relay prints: {words[0][:40]}")
        if len(words) < 4:
            raise BadWord("a line that a relay prints without its words")
        moment, conn, told = decimal(words[1], LAST_MOMENT), decimal(words[2]), words[3:]
        if told == ["open"] and words[0] == ">":
            self._open(number, moment, conn)
        elif told == ["closed"] and words[0] == "<":
            self._link(number, conn).items.append(Item(number, OUTCOME, None, "closed", (), b"", moment))
        elif told[0] == "end" and words[0] == ">" and len(told) == 2:
            self._link(number, conn).items.append(Item(number, EVENT, side_of(told[1]), "ended", (), b"", moment))
        elif len(told) == 2:
            item = Item(number, OCTETS, side_of(told[0]), "octets", (), octets_of(told[1]), moment)
            link = self._link(number, conn)
            (link.came if words[0] == ">" else link.items).append(item)
        else:
            raise BadWord(f"no words of a line that a relay prints: {' '.join(told)[:40]}")

    def _open(self, number, moment, conn):
        if conn in self.by_number:
            raise BadWord(f"connection {conn} is opened twice")
        link = self.link(conn)
        link.wired = True
        link.items.append(Item(number, OUTCOME, None, "open", (), b"", moment))

    def _link(self, number, conn):
        if conn not in self.by_number:
            self.reading.bad.append(BadLine(number, f"connection {conn} wasn't opened by a line before"))
            self.link(conn).wired = True
        return self.by_number[conn]
