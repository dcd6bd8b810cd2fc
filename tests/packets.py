"""Captures of TCP connections, made packet by packet for the tests: packets.py TAP PORT [SIZE [exchanged]] prints one of the links of a tap, segments of at
most SIZE octets of each piece, and with the fourth word pairs of a side's segments exchanged. The headers are those of RFC 791, 8200 and 9293; checksums are left 0, as hosts leave them to their cards."""
import os
import struct
import sys
from dataclasses import dataclass, replace
from typing import Optional

sys.dont_write_bytecode = True
sys.path.insert(0, os.path.join(os.path.dirname(os.path.dirname(os.path.abspath(__file__))), "tools"))

from decoding import sources  # noqa: E402

FIN, SYN, RST, PSH, ACK = 1, 2, 4, 8, 16
OTHER = {"e": "r", "r": "e"}
ETHERNET, NULL, RAW, COOKED, COOKED_2 = 1, 0, 101, 113, 276
BEGIN = 1_796_000_000_000


@dataclass
class Sent:
    """A segment of a connection: who sent it, its numbers, flags and octets, and its moment in milliseconds."""

    ports: tuple
    side: str
    sequence: int
    acknowledged: Optional[int]
    flags: int
    octets: bytes
    moment: int


class Talk:
    """A connection whose segments are made in order; `first` has the first sequence numbers of both sides."""

    def __init__(self, ports, first, moment=BEGIN):
        self.ports, self.next, self.moment, self.sent = ports, dict(first), moment, []

    def put(self, side, flags, octets=b""):
        acknowledged = None if flags == SYN else self.next[OTHER[side]] % 2 ** 32
        self.sent.append(Sent(self.ports, side, self.next[side] % 2 ** 32, acknowledged, flags, octets, self.moment))
        self.next[side] += len(octets) + (1 if flags & (SYN | FIN) else 0)
        self.moment += 1

    def open(self):
        self.put("e", SYN)
        self.put("r", SYN | ACK)
        self.put("e", ACK)
        return self

    def say(self, pieces, size=1400):
        for side, octets in pieces:
            for place in range(0, len(octets), size):
                self.put(side, PSH | ACK, octets[place:place + size])
        return self

    def close(self):
        self.put("e", FIN | ACK)
        self.put("r", FIN | ACK)
        self.put("e", ACK)
        return self


def pieces_of(link):
    """(side, octets) of each line of a tap's link."""
    return [(item.side, item.octets) for item in link.items]


def talks_of(tap, port, size=1400, first=None):
    """A connection of each link of a tap, one behind the other."""
    links = sources.read(tap).links
    return [sent for number, link in enumerate(links) for sent in Talk((40000 + number, port), first or {"e": 1000, "r": 77000}, BEGIN + 10000 * number)
            .open().say(pieces_of(link), size).close().sent]


def tcp(sent):
    source, target = sent.ports if sent.side == "e" else sent.ports[::-1]
    return struct.pack(">HHIIBBHHH", source, target, sent.sequence, sent.acknowledged or 0, 5 << 4, sent.flags, 65000, 0, 0) + sent.octets


def ip(sent, version=4):
    body = tcp(sent)
    if version == 4:
        return struct.pack(">BBHHHBBH", 0x45, 0, 20 + len(body), 0, 0x4000, 64, 6, 0) + bytes([127, 0, 0, 1]) * 2 + body
    return struct.pack(">IHBB", 6 << 28, len(body), 6, 64) + (bytes(15) + b"\1") * 2 + body


def framed(sent, link_type=ETHERNET, version=4, tags=0):
    """The octets of a captured packet."""
    kind = {4: 0x0800, 6: 0x86DD}[version]
    tagged = b"".join(struct.pack(">HH", 0x8100, 7) for _ in range(tags))
    tagged = struct.pack(">H", kind) if not tags else tagged + struct.pack(">H", kind)
    head = {ETHERNET: bytes(12) + tagged, NULL: struct.pack("<I", {4: 2, 6: 10}[version]), RAW: b"", COOKED: bytes(14) + tagged,
            COOKED_2: tagged[:2] + bytes(18) + tagged[2:]}[link_type]
    body = head + ip(sent, version)
    # What is behind a short Ethernet frame fills it up, and is none of the IP packet's.
    return body + b"\x7e" * max(0, 60 - len(body)) if link_type == ETHERNET else body


def pcap(packets, link_type=ETHERNET, order="<", ticks=10 ** 6):
    """A capture of the format pcap of (moment, octets, length on the line)."""
    magic = {10 ** 6: 0xA1B2C3D4, 10 ** 9: 0xA1B23C4D}[ticks]
    out = [struct.pack(order + "IHHiIII", magic, 2, 4, 0, 0, 262144, link_type)]
    for moment, octets, length in packets:
        out.append(struct.pack(order + "IIII", moment // 1000, moment % 1000 * (ticks // 1000), len(octets), length) + octets)
    return b"".join(out)


def block(order, kind, body):
    body += bytes(-len(body) % 4)
    return struct.pack(order + "II", kind, len(body) + 12) + body + struct.pack(order + "I", len(body) + 12)


def pcapng(packets, link_type=ETHERNET, order="<", resolution=None):
    """A capture of the format pcapng; `resolution` is the option of its interface, microseconds where it is left out."""
    option = b"" if resolution is None else struct.pack(order + "HHB3xHH", 9, 1, resolution, 0, 0)
    ticks = 10 ** 6 if resolution is None else (2 if resolution & 0x80 else 10) ** (resolution & 0x7F)
    out = [block(order, 0x0A0D0D0A, struct.pack(order + "IHHq", 0x1A2B3C4D, 1, 0, -1)), block(order, 1, struct.pack(order + "HHI", link_type, 0, 0) + option)]
    for moment, octets, length in packets:
        at = -(-moment * ticks // 1000)
        head = struct.pack(order + "IIIII", 0, at >> 32, at & 0xFFFFFFFF, len(octets), length)
        out.append(block(order, 6, head + octets))
    return b"".join(out)


def whole(sents, link_type=ETHERNET, version=4, tags=0):
    """(moment, octets, length) of segments that are captured whole."""
    packets = [(sent.moment, framed(sent, link_type, version, tags)) for sent in sents]
    return [(moment, octets, len(octets)) for moment, octets in packets]


def shifted(sents, side, count):
    """The same segments where a side's sequence numbers are greater by so much."""
    return [replace(sent, sequence=(sent.sequence + count) % 2 ** 32) if sent.side == side else
            replace(sent, acknowledged=None if sent.acknowledged is None else (sent.acknowledged + count) % 2 ** 32) for sent in sents]


def exchanged(sents):
    """The same segments, where each two neighbours with octets of one side are exchanged."""
    made, at = list(sents), 0
    while at + 1 < len(made):
        first, second = made[at], made[at + 1]
        if first.octets and second.octets and (first.ports, first.side) == (second.ports, second.side):
            made[at], made[at + 1], at = second, first, at + 1
        at += 1
    return made


def main():
    with open(sys.argv[1], "rb") as file:
        sents = talks_of(file.read(), int(sys.argv[2]), *map(int, sys.argv[3:4]))
    sys.stdout.buffer.write(pcapng(whole(exchanged(sents) if sys.argv[4:] else sents)))


if __name__ == "__main__":
    main()
