"""Captures in the format pcapng: a section header block, an interface description block a link, an enhanced packet block a frame.

Numbers are written with the least significant octet first, and each part is filled up to a multiple of four octets. Captures with other blocks
and options, and in the other order of octets, are read too; so are those of the older format pcap, in both orders, with micro- or nanoseconds.

A packet is written with the CRC-32 of its octets, so that one whose octets were altered in the capture is seen.
"""
import heapq
import operator
import struct
import zlib
from dataclasses import dataclass, field
from typing import List, Optional

from .sources import LAST_MOMENT

SECTION, INTERFACE, SIMPLE_PACKET, PACKET = 0x0A0D0D0A, 1, 3, 6
BYTE_ORDER = 0x1A2B3C4D
COMMENT = 1
PROGRAM = 4
NAME, DESCRIPTION, RESOLUTION, OFFSET = 2, 3, 9, 14
FLAGS, HASH = 2, 3
CRC_32 = 2
MILLISECONDS = 3
# How captures begin: of pcapng; of pcap, with the order of its octets and its ticks a second.
BEGIN = b"\x0a\x0d\x0d\x0a"
OLDER = {b"\xd4\xc3\xb2\xa1": ("<", 10 ** 6), b"\xa1\xb2\xc3\xd4": (">", 10 ** 6),
         b"\x4d\x3c\xb2\xa1": ("<", 10 ** 9), b"\xa1\xb2\x3c\x4d": (">", 10 ** 9)}

# The link types that users may give a meaning: frames of the link, and the SaPDUs of a drill of level safe.
FRAMES, SAPDUS = 147, 148

# What the flags of a packet say: its direction, and what was wrong with it.
INBOUND, OUTBOUND = 1, 2
BAD_CHECK, TOO_LONG, TOO_SHORT, SYMBOL = 1 << 24, 1 << 25, 1 << 26, 1 << 31


def _filled(octets):
    return octets + bytes(-len(octets) % 4)


def _options(options):
    """Pairs of code and value, with the end of the list."""
    return b"".join(struct.pack("<HH", code, len(value)) + _filled(value) for code, value in options) + bytes(4)


def _hash(octets):
    """The option's value: which sum it is, and the sum, its most significant octet first."""
    return struct.pack(">BI", CRC_32, zlib.crc32(octets))


def _block(kind, body):
    length = struct.pack("<I", len(body) + 12)
    return struct.pack("<I", kind) + length + body + length


class Writer:
    """Writes one section to a binary file: all interfaces first, then packets in any order."""

    def __init__(self, out, program):
        self.out = out
        self.interfaces = 0
        body = struct.pack("<IHHq", BYTE_ORDER, 1, 0, -1) + _options([(PROGRAM, program.encode())])
        out.write(_block(SECTION, body))

    def interface(self, link_type, name, description=""):
        """Describes an interface, whose moments are milliseconds, and answers its number."""
        options = [(NAME, name.encode()), (RESOLUTION, bytes([MILLISECONDS]))]
        if description:
            options.insert(1, (DESCRIPTION, description.encode()))
        self.out.write(_block(INTERFACE, struct.pack("<HHI", link_type, 0, 0) + _options(options)))
        self.interfaces += 1
        return self.interfaces - 1

    def packet(self, interface, moment, octets, flags, length=None, comment=""):
        """Writes a packet; `length` is how many octets it had on the line, where not all of them are there."""
        options = [(FLAGS, struct.pack("<I", flags)), (HASH, _hash(octets))]
        if comment:
            options.append((COMMENT, comment.encode()))
        length = len(octets) if length is None else length
        head = struct.pack("<IIIII", interface, moment >> 32 & 0xFFFFFFFF, moment & 0xFFFFFFFF, len(octets), length)
        self.out.write(_block(PACKET, head + _filled(octets) + _options(options)))


@dataclass
class Packet:
    """A packet: its number in the capture, from 1, its direction (INBOUND, OUTBOUND or 0), its moment in milliseconds where it tells one, its octets,
    how many it had on the line, whether it is marked as bad, and why its octets aren't those that were captured, or nothing."""

    number: int
    direction: int
    moment: Optional[int]
    octets: bytes
    length: int
    bad: bool = False
    fault: str = ""


@dataclass
class Interface:
    """An interface: its link type, its name and description, the ticks a second and the first moment of its clock, and its packets."""

    link_type: int
    name: str = ""
    about: str = ""
    ticks: int = 10 ** 6
    begin: int = 0
    packets: List[Packet] = field(default_factory=list)

    def moment(self, ticks):
        """The moment of so many ticks in milliseconds, None where it is none."""
        moment = self.begin + ticks * 1000 // self.ticks
        return moment if 0 <= moment <= LAST_MOMENT else None


def is_capture(data):
    return data.startswith(BEGIN) or data[:4] in OLDER


def in_order(interfaces):
    """(interface, packet) of all interfaces, as they stand in the capture."""
    lists = [[(packet.number, interface, packet) for packet in interface.packets] for interface in interfaces]
    for _, interface, packet in heapq.merge(*lists, key=operator.itemgetter(0)):
        yield interface, packet


def read(data):
    """The interfaces of a capture, and what of it couldn't be read. Blocks of other kinds are passed over."""
    return _read_older(data) if data[:4] in OLDER else _Reader(data).read()


def _read_older(data):
    """The one interface of a capture of the format pcap."""
    order, ticks = OLDER[data[:4]]
    if len(data) < 24:
        return [], ["a header that isn't whole, at octet 0"]
    interface, place = Interface(struct.unpack_from(order + "I", data, 20)[0] & 0xFFFF, ticks=ticks), 24
    while place + 16 <= len(data):
        seconds, parts, kept, length = struct.unpack_from(order + "IIII", data, place)
        if place + 16 + kept > len(data):
            break
        octets, fault = data[place + 16:place + 16 + kept], cut(kept, length)
        interface.packets.append(Packet(len(interface.packets) + 1, 0, interface.moment(seconds * ticks + parts), octets, length, False, fault))
        place += 16 + kept
    return [interface], [f"a packet that isn't whole, at octet {place}; what is behind it is left out"] if place < len(data) else []


def cut(kept, length):
    """What is told of a packet that isn't whole, or nothing."""
    return f"cut, {kept} of its {length} octets are there" if kept < length else ""


class _Reader:
    """Reads the blocks of a capture of the format pcapng. `section` has the interfaces of the section that is read."""

    def __init__(self, data):
        self.data = data
        self.found, self.section, self.bad = [], [], []
        self.count = 0

    def read(self):
        readers = {INTERFACE: self._interface, PACKET: self._packet, SIMPLE_PACKET: self._simple}
        for order, place, kind, body in self._blocks():
            if kind == SECTION:
                self.section = []
            elif kind in readers:
                why = readers[kind](order, body)
                self.bad += [f"{why}, at octet {place}"] if why else []
        return self.found, self.bad

    def _blocks(self):
        """(order of octets, place, kind, body) of each block; why the rest is none is added to `bad`."""
        data, order, place = self.data, "<", 0
        while place < len(data):
            kind, length = struct.unpack_from(order + "II", data, place) if place + 12 <= len(data) else (0, 0)
            if kind == SECTION:
                order = "<" if data[place + 8:place + 12] == struct.pack("<I", BYTE_ORDER) else ">"
                length = struct.unpack_from(order + "I", data, place + 4)[0]
            if length < 12 or place + length > len(data):
                self.bad.append(f"a block that isn't whole, at octet {place}; what is behind it is left out")
                return
            yield order, place, kind, data[place + 8:place + length - 4]
            place += length

    def _interface(self, order, body):
        """Adds an interface, whatever its body is, since packets name it by its place."""
        options = _options_of(order, body[8:])
        name, about = (options.get(code, b"").decode("latin-1") for code in (NAME, DESCRIPTION))
        link_type = struct.unpack_from(order + "H", body)[0] if len(body) >= 8 else 0
        interface = Interface(link_type, name, about, _ticks(options.get(RESOLUTION, b"")), _begin(order, options.get(OFFSET, b"")))
        self.found.append(interface)
        self.section.append(interface)
        return None if len(body) >= 8 else "an interface that isn't whole"

    def _packet(self, order, body):
        """Adds a packet to its interface; answers why it can't, or None."""
        self.count += 1
        if len(body) < 20:
            return "a packet that isn't whole"
        number, high, low, kept, length = struct.unpack_from(order + "IIIII", body)
        if 20 + kept > len(body):
            return "a packet that isn't whole"
        if number >= len(self.section):
            return f"a packet of interface {number}, which isn't described"
        octets, options = body[20:20 + kept], _options_of(order, body[20 + kept + -kept % 4:])
        flags = options.get(FLAGS, b"")
        flags = struct.unpack(order + "I", flags)[0] if len(flags) == 4 else 0
        fault = cut(kept, length)
        if not fault and options.get(HASH, b"")[:1] == bytes([CRC_32]) and options[HASH] != _hash(octets):
            fault = "altered, its octets aren't those of its CRC-32"
        moment = self.section[number].moment(high << 32 | low)
        self.section[number].packets.append(Packet(self.count, flags & 3, moment, octets, length, flags >> 16 != 0, fault))
        return "a packet of no moment" if moment is None else None

    def _simple(self, order, body):
        """Adds a packet that tells its length alone."""
        self.count += 1
        if len(body) < 4 or not self.section:
            return "a packet that isn't whole"
        length = struct.unpack_from(order + "I", body)[0]
        octets = body[4:4 + length]
        self.section[0].packets.append(Packet(self.count, 0, None, octets, length, False, cut(len(octets), length)))
        return None


def _ticks(option):
    """The ticks a second that an option tells: a power of 10, or of 2 where its highest bit is set; else microseconds."""
    if len(option) != 1:
        return 10 ** 6
    return (2 if option[0] & 0x80 else 10) ** (option[0] & 0x7F)


def _begin(order, option):
    """The moment at which a clock begins, which an option tells in seconds."""
    return struct.unpack(order + "q", option)[0] * 1000 if len(option) == 8 else 0


def _options_of(order, data):
    """The options of a block by their codes, as far as they can be read."""
    found, place = {}, 0
    while place + 4 <= len(data):
        code, length = struct.unpack_from(order + "HH", data, place)
        if code == 0:
            break
        found[code] = data[place + 4:place + 4 + length]
        place += 4 + length + -length % 4
    return found
