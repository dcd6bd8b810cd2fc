"""TCP connections of a capture (RFC 9293), put together: what each side sent, in its order, at the packets with which the other side could read it.

Segments may come again, overlap, come in another order, and have numbers that wrap; of octets that come twice those that came first are kept, as a
receiver does. What no packet of the capture has is told, and left out of the stream. A new SYN between the same two ends begins another connection.

The engine, e, is who connected: the sender of the SYN, else the receiver of the SYN that answers it, else the side whose port isn't the one that is read.
"""
import bisect
import heapq
import operator
from dataclasses import dataclass
from typing import Optional

from . import captures, datalinks, identities, sources
from .datalinks import ACK, FIN, RST, SYN

WHOLE, HALF = 1 << 32, 1 << 31
# Numbers that are farther from those of a connection are of another one.
NEAR = 1 << 24


@dataclass(slots=True)
class Piece:
    """Octets of a stream at their place, which counts on where the numbers of TCP wrap, and the packet that brought them."""

    place: int
    octets: bytes
    number: int
    moment: Optional[int]

    @property
    def end(self):
        return self.place + len(self.octets)


class BadPacket(sources.BadLine):
    """A packet that couldn't be read, or behind which octets are missing."""

    def __str__(self):
        return f"packet {self.line}: {sources.printable(self.why)}"


class Stream:
    """What one side of a connection sent, as it came.

    `first` is the place of its first octet, where its SYN is there; `end` that of its FIN; `acknowledged` the first and the last place that the other side
    acknowledged; `last` a place near to that of the next segment, None before any.
    """

    def __init__(self):
        self.first = self.end = self.last = None
        self.acknowledged = None
        self.pieces = []

    def place_of(self, number):
        """The place of a sequence number: the one that is next to the last one."""
        near = WHOLE if self.last is None else self.last
        return near + (number - near + HALF) % WHOLE - HALF

    def add(self, segment, number, moment):
        place = self.place_of(segment.sequence)
        if segment.flags & SYN:
            place += 1
            self.first = place if self.first is None else self.first
        self.last = place + segment.length
        if segment.octets:
            self.pieces.append(Piece(place, segment.octets, number, moment))
        if segment.flags & FIN and self.end is None:
            self.end = self.last

    def is_acknowledged(self, number):
        """Hears an acknowledgement of the other side."""
        place = self.place_of(number)
        self.last = place if self.last is None else self.last
        least, most = self.acknowledged or (place, place)
        self.acknowledged = min(least, place), max(most, place)

    def begin(self):
        """The place at which the stream begins, as far as the capture has it."""
        if self.first is not None:
            return self.first
        places = [piece.place for piece in self.pieces] + list(self.acknowledged or ())[:1]
        return min(places, default=0)

    def in_order(self):
        """The pieces by their places, without octets that came before, and the numbers of packets that brought others for these."""
        places, kept, altered = [], [], []
        begin = self.begin()
        for piece in self.pieces:
            place, octets = max(piece.place, begin), piece.octets[max(0, begin - piece.place):]
            at = bisect.bisect_right(places, place)
            while octets:
                before = kept[at - 1] if at else None
                if before and place < before.end:
                    count = min(len(octets), before.end - place)
                    if octets[:count] != before.octets[place - before.place:place - before.place + count]:
                        altered.append(piece.number)
                else:
                    count = min(len(octets), places[at] - place) if at < len(places) else len(octets)
                    places.insert(at, place)
                    kept.insert(at, Piece(place, octets[:count], piece.number, piece.moment))
                    at += 1
                octets, place = octets[count:], place + count
                while at < len(places) and places[at] <= place:
                    at += 1
        return kept, sorted(set(altered))

    def delivered(self):
        """(the pieces, each at the packet with which all before it were there too; (packet behind it, count) of octets that are missing; how many at least are
        behind the last one; packets that brought other octets for some that came before)."""
        kept, altered = self.in_order()
        place, latest, came, missing = self.begin(), None, [], []
        for piece in kept:
            if piece.place > place:
                missing.append((piece.number, piece.place - place))
            if latest is None or piece.number > latest.number:
                latest = piece
            came.append(Piece(piece.place, piece.octets, latest.number, latest.moment))
            place = piece.end
        # Without the FIN the last place that was acknowledged may be that of the FIN itself.
        end = self.end if self.end is not None else self.acknowledged[1] - 1 if self.acknowledged else place
        return came, missing, max(0, end - place), altered


class Connection:
    """A connection between two ends, `opener` (e) and `other` (r); `number` is that of its first packet, `latest` that of its last."""

    def __init__(self, number, opener, other):
        self.number = self.latest = number
        self.sides = {"e": opener, "r": other}
        self.streams = {opener: Stream(), other: Stream()}
        self.is_reset = False

    def has(self, segment):
        """Whether a segment between the two ends belongs to this connection, and not to one behind it."""
        stream = self.streams[segment.source]
        if segment.flags & SYN and stream.first is not None:
            return stream.place_of(segment.sequence) + 1 == stream.first
        is_near = stream.last is None or abs(stream.place_of(segment.sequence) - stream.last) <= NEAR
        if segment.flags & SYN:
            return is_near and all(stream.place_of(segment.sequence) < piece.place for piece in stream.pieces)
        is_ended = self.is_reset or all(stream.end is not None for stream in self.streams.values())
        return is_near or not is_ended

    def add(self, segment, number, moment):
        self.latest = number
        if segment.flags & RST:
            self.is_reset = True
            return
        if segment.flags & SYN:
            opener, other = (segment.target, segment.source) if segment.flags & ACK else (segment.source, segment.target)
            self.sides = {"e": opener, "r": other}
        self.streams[segment.source].add(segment, number, moment)
        if segment.acknowledged is not None:
            self.streams[segment.target].is_acknowledged(segment.acknowledged)


def _connections(interfaces, port, told):
    """The connections of a capture from or to this port, in the order of their first packets."""
    found, by_ends = [], {}
    for interface, packet in captures.in_order(interfaces):
        try:
            segment = datalinks.segment_of(interface.link_type, packet.octets, packet.length, port)
        except datalinks.Unread as why:
            told.append(BadPacket(packet.number, f"{why}; it is left out"))
            continue
        if segment is None or segment.source == segment.target:
            continue
        if packet.fault and (len(packet.octets) == packet.length or len(segment.octets) < segment.length):
            told.append(BadPacket(packet.number, packet.fault))
        ends = frozenset((segment.source, segment.target))
        connection = by_ends.get(ends)
        if connection is None or not connection.has(segment):
            opener, other = (segment.target, segment.source) if segment.source[1] == port else (segment.source, segment.target)
            connection = by_ends[ends] = Connection(packet.number, opener, other)
            found.append(connection)
        connection.add(segment, packet.number, packet.moment)
    return found


def _link(connection, number, told):
    """What was sent on a connection as a link of this number, None where nothing was."""
    lists, name = [], f"link {number}"
    streams = {side: connection.streams[end] for side, end in connection.sides.items()}
    lost = []
    for side, stream in streams.items():
        came, missing, behind, altered = stream.delivered()
        lists.append([sources.Item(piece.number, sources.OCTETS, side, "octets", (), piece.octets, piece.moment) for piece in came])
        lost += [BadPacket(packet, f"{count} octets of {name} {side} before it aren't in the capture") for packet, count in missing]
        lost += [BadPacket(connection.latest, f"at least {behind} octets of {name} {side} behind all others aren't in the capture")] if behind else []
        lost += [BadPacket(packet, f"octets of {name} {side} that came before, with other values; those that came first are kept") for packet in altered]
    if not any(lists) and not lost:
        return None
    if all(stream.first is None for stream in streams.values()):
        lost.append(BadPacket(connection.number, f"the first of {name}, whose SYN isn't in the capture: what was sent before it is missing"))
    told += lost
    link = sources.Link("link", number, list(heapq.merge(*lists, key=operator.attrgetter("line"))))
    link.wired = True
    link.moment = identities.moment_of_au1(link)
    return link


def links_of(data, port):
    """The links that a capture has, one for each connection from or to this port on which octets were sent, numbered from 1; and what couldn't be read."""
    if not captures.is_capture(data):
        return [], ["no capture of the formats pcapng and pcap"]
    interfaces, bad = captures.read(data)
    bad += [f"interface {place} has link type {interface.link_type}, in which TCP isn't looked for"
            for place, interface in enumerate(interfaces, 1) if interface.link_type not in datalinks.KNOWN and interface.packets]
    links, told = [], []
    for connection in _connections(interfaces, port, told):
        link = _link(connection, len(links) + 1, told)
        links += [link] if link else []
    return links, bad + sorted(told, key=operator.attrgetter("line"))
