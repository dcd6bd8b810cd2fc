"""TPDUs of ITU-T X.224 class 2 with explicit flow control, normal formats (clause 13), and the messages that DT TPDUs carry.

LI counts the octets of the header after itself, user data left out. A parameter is code, length and value (13.2.3).
"""
from dataclasses import dataclass
from typing import Optional, Tuple

from .faults import Fault

CREDIT_CODES = {0xE0: "CR", 0xD0: "CC", 0x60: "AK"}
WHOLE_CODES = {0x80: "DR", 0xC0: "DC", 0xF0: "DT", 0x70: "ER"}
EXACT = {"DC": 5, "DT": 4, "AK": 4}
FIXED = {"CR": 6, "CC": 6, "DR": 6, "ER": 4}
MOST_USER = {"CR": 32, "CC": 32, "DR": 64, "DT": 1019, "DC": 0, "AK": 0, "ER": 0}
CLASS_2 = 0x20
SIZE = 0xC0
SIZES = {0x07: 128, 0x08: 256, 0x09: 512, 0x0A: 1024, 0x0B: 2048, 0x0C: 4096, 0x0D: 8192}
LEAST_SIZE, GREATEST_SIZE = 128, 8192
LONGEST_MESSAGE = 1032


@dataclass(frozen=True)
class Tpdu:
    """A TPDU, with the fields that its kind has; the others are None.

    `destination` and `source` are the references; `number` is TPDU-NR of DT and YR-TU-NR of AK; `last` the EOT bit; `reason` the reason of DR
    or the cause of ER; `size` the octets that C0 names (128 where it is absent); `parameters` pairs of code and value.
    """

    kind: str
    octets: bytes
    destination: int
    source: Optional[int] = None
    credit: Optional[int] = None
    size: Optional[int] = None
    number: Optional[int] = None
    last: Optional[bool] = None
    reason: Optional[int] = None
    parameters: Tuple[Tuple[int, bytes], ...] = ()
    user: bytes = b""


def read_tpdu(octets):
    """The TPDU that these octets spell. Raises Fault Empty, Length, Code, Class, Parameter, Value or UserData, in this order."""
    kind, header, user = _split(octets)
    parameters = _parameters(kind, header)
    size = _size(parameters) if kind in ("CR", "CC") else None
    if kind == "AK" and header[4] & 0x80:
        raise Fault("Value", "2.2", code="60", octet=f"{header[4]:02x}")
    if len(user) > MOST_USER[kind] or kind == "DT" and not user:
        raise Fault("UserData", "2.2", max=MOST_USER[kind], found=len(user))
    return Tpdu(kind, bytes(octets), int.from_bytes(header[2:4], "big"), parameters=parameters, size=size, user=bytes(user),
                **_fields(kind, header))


def _split(octets):
    """(kind, header octets, user data) with the faults of lengths, code and class: 13.2.1, 13.2.2, 13.3.3."""
    if not octets:
        raise Fault("Empty", "2.2")
    indicator = octets[0]
    length = Fault("Length", "2.2", li=indicator, found=len(octets))
    if indicator in (0, 255) or indicator + 1 > len(octets):
        raise length
    code = octets[1]
    kind = CREDIT_CODES.get(code & 0xF0) or WHOLE_CODES.get(code)
    if kind is None:
        raise Fault("Code", "2.2", octet=f"{code:02x}")
    if indicator != EXACT.get(kind, indicator) or indicator < FIXED.get(kind, 0):
        raise length
    if kind in ("CR", "CC") and octets[6] != CLASS_2:
        raise Fault("Class", "2.2", octet=f"{octets[6]:02x}")
    return kind, octets[: indicator + 1], octets[indicator + 1:]


def _fields(kind, header):
    fields = {}
    if kind in ("CR", "CC", "AK"):
        fields["credit"] = header[1] & 15
    if kind in ("CR", "CC", "DR", "DC"):
        fields["source"] = int.from_bytes(header[4:6], "big")
    if kind == "DR":
        fields["reason"] = header[6]
    if kind == "ER":
        fields["reason"] = header[4]
    if kind == "AK":
        fields["number"] = header[4]
    if kind == "DT":
        fields["number"], fields["last"] = header[4] & 0x7F, bool(header[4] & 0x80)
    return fields


def _allowed(kind, code):
    """Whether a TPDU of this kind may have this parameter: 13.3.4, 13.4.4, 13.5.4, 13.12.4, as this profile narrows them."""
    return kind in ("CR", "ER") or kind == "CC" and code in (SIZE, 0xC1, 0xC2) or kind == "DR" and code == 0xE0


def _parameters(kind, header):
    """The parameters behind the fixed part. Raises Fault Parameter for the first bad one from the left."""
    found = []
    place = FIXED.get(kind, len(header) - 1) + 1
    while place < len(header):
        code = header[place]
        value = header[place + 2:]
        length = header[place + 1] if place + 1 < len(header) else len(value) + 1
        sized = kind in ("CR", "CC") and code == SIZE
        again = sized and any(other == SIZE for other, _ in found)
        if length > len(value) or not _allowed(kind, code) or sized and (length != 1 or again):
            raise Fault("Parameter", "2.2", code=f"{code:02x}")
        found.append((code, bytes(value[:length])))
        place += 2 + length
    return tuple(found)


def _size(parameters):
    for code, value in parameters:
        if code == SIZE:
            if value[0] not in SIZES:
                raise Fault("Value", "2.2", code="c0", octet=f"{value[0]:02x}")
            return SIZES[value[0]]
    return LEAST_SIZE


class MessageJoiner:
    """Joins the DT TPDUs of one direction to messages: X.224, 6.3 (segmenting and reassembling) and 6.10 (numbering).

    `count` is how many DT came, and None where the numbers go on from the first that comes.
    """

    def __init__(self, count=0):
        self.count = count
        self.held = bytearray()

    def add(self, tpdu):
        """A whole message, or None where more segments follow. Raises Fault Number or Message; the numbers go on from the one that came."""
        expected = tpdu.number if self.count is None else self.count
        self.count = expected + 1
        if tpdu.number != expected % 128:
            self.count = expected + (tpdu.number - expected) % 128 + 1
            self.held = bytearray()
            raise Fault("Number", "2.2", expected=expected % 128, found=tpdu.number)
        self.held += tpdu.user
        if len(self.held) > LONGEST_MESSAGE:
            length, self.held = len(self.held), bytearray()
            raise Fault("Message", "2.3", octets=length)
        if not tpdu.last:
            return None
        whole, self.held = bytes(self.held), bytearray()
        return whole
