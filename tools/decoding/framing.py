"""Frames on an octet stream: ISO/IEC 13239, frame structure with octet transparency and the check sequence of 16 bits.

A frame is a flag, its content and a flag. One flag may close a frame and begin the next; nothing between two flags is no frame; octets before
the first flag are no part of any. The content is the address, the control and information, and the check sequence, low octet first.
"""
from dataclasses import dataclass
from typing import Any

FLAG = 0x7E
ESCAPE = 0x7D
BIT = 0x20
LONGEST = 1032
SHORTEST = 4

# The verdicts on a frame, in the order in which they are tried.
ABORTED = "aborted"
TOO_LONG = "too long"
TOO_SHORT = "too short"
BAD_CHECK = "bad check sequence"
INTACT = "intact"


def _row(octet):
    for _ in range(8):
        octet = octet >> 1 ^ (0x8408 if octet & 1 else 0)
    return octet


_ROWS = [_row(octet) for octet in range(256)]


def check_sequence(octets):
    """FCS of 16 bits: x^16 + x^12 + x^5 + 1, least significant bit of each octet first, preset to ones, complemented."""
    register = 0xFFFF
    for octet in octets:
        register = register >> 8 ^ _ROWS[(register ^ octet) & 0xFF]
    return register ^ 0xFFFF


@dataclass(frozen=True)
class Frame:
    """What stood between two flags, escapes undone.

    `content` has the check sequence too, and at most the first 1,033 octets; `length` counts all. `begun` and `closed` are the marks of the
    pieces that brought the frame's first octet and its closing flag.
    """

    verdict: str
    content: bytes
    length: int
    begun: Any = None
    closed: Any = None

    @property
    def intact(self):
        return self.verdict == INTACT

    @property
    def address(self):
        """The address octet, where there is one."""
        return self.content[0] if self.content else None

    @property
    def body(self):
        """Control and information: what stands between the address and the check sequence."""
        return self.content[1:-2]

    @property
    def without_check(self):
        """Address, control and information."""
        return self.content[:-2]


class Deframer:
    """Reads the frames of one direction, however its octets are cut into pieces. What it keeps is bounded by the longest frame.

    `dropped` counts the octets before the first flag, and `dropped_at` is the mark of the piece that brought the first of them.
    """

    def __init__(self):
        self.dropped = 0
        self.dropped_at = None
        self._within = False
        self._start()

    def _start(self):
        self._content = bytearray()
        self._length = 0
        self._any = False
        self._escaped = False
        self._begun = None

    @property
    def open(self):
        """Whether octets of a frame that isn't closed yet were read."""
        return self._any

    @property
    def begun(self):
        """The mark of the piece that began the frame that isn't closed yet."""
        return self._begun

    def feed(self, piece, mark=None):
        """The frames that this piece closes, in order."""
        frames = []
        place = 0
        while place < len(piece):
            flag = piece.find(FLAG, place)
            end = len(piece) if flag < 0 else flag
            if end > place and not self._within:
                self.dropped_at = self.dropped_at if self.dropped else mark
                self.dropped += end - place
            elif end > place:
                self._add(piece[place:end], mark)
            if flag < 0:
                break
            if self._any:
                frames.append(Frame(self._verdict(), bytes(self._content), self._length, self._begun, mark))
            self._start()
            self._within = True
            place = flag + 1
        return frames

    def _add(self, octets, mark):
        if not self._any:
            self._any, self._begun = True, mark
        if ESCAPE in octets or self._escaped:
            octets = self._unescaped(octets)
        self._length += len(octets)
        self._content += octets[: LONGEST + 1 - len(self._content)]

    def _unescaped(self, octets):
        plain = bytearray()
        escaped = self._escaped
        for octet in octets:
            if escaped:
                plain.append(octet ^ BIT)
                escaped = False
            elif octet == ESCAPE:
                escaped = True
            else:
                plain.append(octet)
        self._escaped = escaped
        return plain

    def _verdict(self):
        if self._escaped:
            return ABORTED
        if self._length > LONGEST:
            return TOO_LONG
        if self._length < SHORTEST:
            return TOO_SHORT
        if check_sequence(self._content[:-2]) != int.from_bytes(self._content[-2:], "little"):
            return BAD_CHECK
        return INTACT


def frames_of(octets):
    """The frames of a whole stream."""
    return Deframer().feed(octets)


def spelled(octets):
    """A whole frame, from flag to flag, of this address, control and information."""
    content = octets + check_sequence(octets).to_bytes(2, "little")
    line = bytearray([FLAG])
    for octet in content:
        line += bytes([ESCAPE, octet ^ BIT]) if octet in (FLAG, ESCAPE) else bytes([octet])
    return bytes(line) + bytes([FLAG])
