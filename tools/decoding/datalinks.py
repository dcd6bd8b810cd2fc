"""What stands below TCP in a captured packet: the header of its link type, VLAN tags, and IPv4 (RFC 791) or IPv6 (RFC 8200).

Link types, by their numbers in captures: Ethernet, loopback (NULL and LOOP), raw IP, and Linux cooked captures of both versions, which `tcpdump -i any`
writes.
"""
from dataclasses import dataclass
from typing import Optional, Tuple

ETHERNET, NULL, LOOP, COOKED, COOKED_2 = 1, 0, 108, 113, 276
RAW = (12, 14, 101, 228, 229)
# Where the type of what follows stands, and the first octet behind the header.
TYPED = {ETHERNET: (12, 14), COOKED: (14, 16), COOKED_2: (0, 20)}
TAGS = (0x8100, 0x88A8, 0x9100)
IP_TYPES = (0x0800, 0x86DD)
# The families of IPv4, and of IPv6 on the systems that write captures.
FAMILIES = (2, 10, 24, 28, 30)
TCP, FRAGMENT, AUTHENTICATION = 6, 44, 51
# Headers that may stand between that of IPv6 and that of TCP: hop by hop, routing, destination.
EXTENSIONS = (0, 43, 60)
FIN, SYN, RST, ACK = 1, 2, 4, 16
KNOWN = (ETHERNET, NULL, LOOP, COOKED, COOKED_2, *RAW)

End = Tuple[bytes, int]


class Unread(ValueError):
    """Why a packet that may be of the connections that are read can't be read."""


@dataclass(frozen=True)
class Segment:
    """A TCP segment (RFC 9293): who sent it to whom, each an address and a port, its numbers, its flags, and its octets; `length` counts those that it had
    on the line, of which a cut packet has fewer. `acknowledged` is None without the flag ACK."""

    source: End
    target: End
    sequence: int
    acknowledged: Optional[int]
    flags: int
    octets: bytes
    length: int


def segment_of(link_type, octets, length, port):
    """The segment in a captured packet that had so many octets on the line, None where it has none from or to this port. Raises Unread."""
    packet = _ip_packet(link_type, octets)
    if not packet:
        return None
    beyond = max(0, length - len(octets))
    read = {4: _of_ipv4, 6: _of_ipv6}.get(packet[0] >> 4)
    found = read(packet, len(packet) + beyond) if read else None
    return _tcp(*found, port) if found else None


def _number(octets):
    return int.from_bytes(octets, "big")


def _ip_packet(link_type, octets):
    """The IP packet behind the header of a link type, None where there is none."""
    if link_type in RAW:
        return octets
    if link_type in (NULL, LOOP):
        return octets[4:] if _number(octets[:4]) in FAMILIES or int.from_bytes(octets[:4], "little") in FAMILIES else None
    if link_type not in TYPED:
        return None
    place, behind = TYPED[link_type]
    kind = _number(octets[place:place + 2])
    while kind in TAGS:
        kind, behind = _number(octets[behind + 2:behind + 4]), behind + 4
    return octets[behind:] if kind in IP_TYPES else None


def _of_ipv4(packet, length):
    """(source, target, the TCP segment, its length on the line), None where it is another protocol's. A total length of 0 leaves it to the capture."""
    head = (packet[0] & 15) * 4
    if len(packet) < 20 or head < 20:
        raise Unread("its IPv4 header isn't whole")
    if packet[9] != TCP:
        return None
    if _number(packet[6:8]) & 0x3FFF:
        raise Unread("a fragment of an IPv4 packet")
    total = _number(packet[2:4]) or length
    if total < head:
        raise Unread("its IPv4 header tells a length that is none")
    return packet[12:16], packet[16:20], packet[head:total], total - head


def _of_ipv6(packet, length):
    """The same of IPv6, whose other headers are passed over."""
    if len(packet) < 40:
        raise Unread("its IPv6 header isn't whole")
    end = 40 + _number(packet[4:6]) if packet[4:6] != b"\0\0" else length
    kind, place = packet[6], 40
    while kind in EXTENSIONS or kind == AUTHENTICATION:
        if place + 2 > len(packet):
            raise Unread("its IPv6 headers aren't whole")
        unit, ahead = (4, 2) if kind == AUTHENTICATION else (8, 1)
        kind, place = packet[place], place + unit * (packet[place + 1] + ahead)
    if kind == FRAGMENT and packet[place:place + 1] == bytes([TCP]):
        raise Unread("a fragment of an IPv6 packet")
    if kind != TCP:
        return None
    if end < place:
        raise Unread("its IPv6 header tells a length that is none")
    return packet[8:24], packet[24:40], packet[place:end], end - place


def _tcp(source, target, octets, length, port):
    ports = _number(octets[:2]), _number(octets[2:4])
    if len(octets) >= 4 and port not in ports:
        return None
    if len(octets) < 20:
        raise Unread("its TCP header isn't whole")
    head = (octets[12] >> 4) * 4
    if not 20 <= head <= length:
        raise Unread("its TCP header tells a length that is none")
    flags = octets[13]
    acknowledged = _number(octets[8:12]) if flags & ACK else None
    return Segment((source, ports[0]), (target, ports[1]), _number(octets[4:8]), acknowledged, flags, octets[head:], length - head)
