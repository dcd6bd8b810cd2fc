"""What the frames of a link carry, layer by layer: control, network block, TPDU, message, SaPDU; both directions of one link.

A direction takes I frames as a receiver does (ISO/IEC 13239, elements of procedure): from the set-up frame or its UA on, one whose N(S) is the
next number is new, any other is a repeated one or stands behind a gap. What is new is joined to TPDUs and messages. So what a sender gave to the
line is read as well as what came out of a line that loses and repeats. Where a recording begins behind the set-up, numbers go on from the first
I frame that is there.

Faults are told with the reason with which an end of this profile would release. What needs the state of the other direction isn't tested: N(R),
the credit below which a DT must lie, and the numbers of AK; nor are MACs, since no key is known.
"""
from dataclasses import dataclass
from typing import Any, Optional

from . import controls, framing, network, safety, transport
from .faults import Fault

OWN_REFERENCE = 1
NO_REFERENCE = 0
OTHER = {"e": "r", "r": "e"}

# What opens each direction: a set-up frame of the calling station, a UA of the called one; then a TPDU; then SaPDUs at their places.
SET_UP = {"e": ("SABM", "SABME"), "r": ("UA",)}
FIRST_TPDUS = {"e": ("CR",), "r": ("CC", "DR")}
LATER_TPDUS = ("DT", "AK", "DR")
SAPDUS = {"e": ("AU1", "AU3", "DT"), "r": ("AU2", "AR", "DT")}


@dataclass
class Carried:
    """What the information of an I frame carries. `part` says that it is a piece of a TPDU whose other pieces are in other frames."""

    part: bool = False
    tpdu: Optional[transport.Tpdu] = None
    message: Optional[bytes] = None
    sapdu: Optional[safety.SaPdu] = None
    fault: Optional[Fault] = None


@dataclass
class Seen:
    """One frame of a link, decoded.

    `side` is the station that sent it; `control` is None where the frame isn't intact or its control is none of the table; `new` says that an
    I frame was the next of its direction, `repeated` that it has another number; `carried` is there for an I frame whose payload is read;
    `fault` is the first fault of any layer.
    """

    side: str
    frame: framing.Frame
    mark: Any = None
    control: Optional[controls.Control] = None
    information: bytes = b""
    new: bool = False
    repeated: bool = False
    carried: Optional[Carried] = None
    fault: Optional[Fault] = None

    @property
    def tpdu(self):
        return self.carried.tpdu if self.carried else None

    @property
    def sapdu(self):
        return self.carried.sapdu if self.carried else None

    @property
    def message(self):
        return self.carried.message if self.carried else None


class Direction:
    """What one station sent so far: its octets, the numbers of its I frames, its TPDUs and messages.

    `set_up` says that its set-up frame, or the UA to one, was seen; `next` is the next N(S) and `texts` the count of its SaPDUs, None where
    they aren't known; `taken` has what the newest I frame of each number carried; `connected` says that a TPDU was read, `disconnected` a DR.
    """

    def __init__(self, side):
        self.side = side
        self.deframer = framing.Deframer()
        self.set_up = False
        self._begin(None)

    def begin_at_set_up(self):
        """All numbers count from 0 behind the first set-up frame, or the first UA."""
        if not self.set_up:
            self.set_up = True
            self._begin(0)

    def _begin(self, number):
        self.next = self.texts = number
        self.blocks = network.Joiner()
        self.messages = transport.MessageJoiner(number)
        self.taken = {}
        self.connected = False
        self.disconnected = False


class Conversation:
    """Both directions of one link. `modulo` is 8 or 128; where it is None, the first SABM or SABME of the link tells it, and it is 8 till then.
    `payloads` False leaves the information of I frames unread, as at level link, where it is the user's own. `selective` says that the stations
    have selective reject."""

    def __init__(self, modulo=None, payloads=True, selective=False):
        self.told = modulo
        self.modulo = modulo or 8
        self.payloads = payloads
        self.selective = selective
        self.size = transport.GREATEST_SIZE
        self.directions = {side: Direction(side) for side in "er"}

    def feed(self, side, octets, mark=None):
        """What each frame is that these octets, sent by this side, close."""
        return [self.look(side, frame, mark) for frame in self.directions[side].deframer.feed(octets, mark)]

    def look(self, side, frame, mark=None):
        """What one frame, sent by this side, is."""
        seen = Seen(side, frame, mark)
        if not frame.intact:
            seen.fault = Fault(frame.verdict)
            return seen
        self._learn_modulo(frame)
        seen.control = controls.read_control(frame.body, self.modulo)
        if seen.control is None and frame.address in controls.ADDRESSES.values():
            seen.fault = Fault("unknown control", "1.3", octet=f"{frame.body[0]:02x}")
            return seen
        seen.information = frame.body[seen.control.octets:] if seen.control else b""
        seen.fault = self._link_fault(seen)
        if seen.fault is None and seen.control.name == "I":
            self._payload(seen)
        elif seen.fault is None and seen.control.name in SET_UP[side]:
            self.directions[side].begin_at_set_up()
        return seen

    def _learn_modulo(self, frame):
        if self.told is None and frame.address == controls.CALLED and frame.body:
            name = frame.body[0] & ~controls.POLL
            if name in (0x2F, 0x6F):
                self.told = self.modulo = 8 if name == 0x2F else 128

    def _link_fault(self, seen):
        """What is wrong with address, control and information: a frame with a wrong address is stray, the others release with 1.3."""
        name, address = seen.control.name if seen.control else "", seen.frame.address
        own, peer = controls.ADDRESSES[seen.side], controls.ADDRESSES[OTHER[seen.side]]
        if address not in (own, peer) or name in controls.COMMANDS and address != peer or name in controls.RESPONSES and address != own:
            return Fault("stray address", None, octet=f"{address:02x}")
        if name == ("REJ" if self.selective else "SREJ"):
            return Fault(name, "1.3")
        if seen.information and name not in ("I", "FRMR"):
            return Fault("information", "1.3", control=name)
        if name in ("SABM", "SABME") and seen.side == "r":
            return Fault("set-up frame at a calling station", "1.3")
        return None

    def _payload(self, seen):
        direction = self.directions[seen.side]
        number = seen.control.send
        seen.new = direction.next in (None, number)
        seen.repeated = not seen.new
        if seen.new:
            direction.next = (number + 1) % self.modulo
        if not self.payloads:
            return
        if seen.new:
            seen.carried = self._carried(direction, seen.information)
            direction.taken[number] = seen.information, seen.carried
        else:
            before, carried = direction.taken.get(number, (None, None))
            seen.carried = carried if before == seen.information else _alone(seen.information)
        seen.fault = seen.carried.fault

    def _carried(self, direction, information):
        """What the next payload of a direction carries, joined with those before it."""
        carried = Carried()
        try:
            whole = direction.blocks.add(information)
            if whole is None:
                carried.part = True
                return carried
            carried.tpdu = transport.read_tpdu(whole)
            self._transport_rules(direction, carried.tpdu)
            if carried.tpdu.kind == "DT":
                carried.message = direction.messages.add(carried.tpdu)
            self._text(direction, carried)
        except Fault as fault:
            carried.fault = fault
        return carried

    def _text(self, direction, carried):
        """The SaPDU in the user data of CR, CC or DR, or in a whole message, with the rules of the safety layer that need no key."""
        tpdu = carried.tpdu
        if tpdu.kind == "DR":
            carried.sapdu = _reason_of_disconnect(direction.side, tpdu.user)
        elif tpdu.kind in ("CR", "CC") or carried.message is not None:
            carried.sapdu = safety.read_sapdu(tpdu.user if carried.message is None else carried.message)
            place = direction.texts
            direction.texts = None if place is None else place + 1
            _safety_rules(direction.side, place, carried.sapdu)

    def _transport_rules(self, direction, tpdu):
        """The rules of class 2 that need no settings: references, which TPDU opens a direction, the size."""
        other = self.directions[OTHER[direction.side]]
        wanted = NO_REFERENCE if tpdu.kind == "CR" else OWN_REFERENCE
        if tpdu.destination != wanted or tpdu.source not in (None, OWN_REFERENCE):
            raise Fault("Reference", "2.2", destination=f"{tpdu.destination:04x}")
        if tpdu.kind == "DC" and other.disconnected:
            return
        expected = LATER_TPDUS if direction.connected else FIRST_TPDUS[direction.side]
        direction.connected = True
        if direction.set_up and tpdu.kind not in expected:
            raise Fault("Unexpected", "2.2", tpdu=tpdu.kind)
        direction.disconnected = direction.disconnected or tpdu.kind == "DR"
        if tpdu.kind == "CC" and tpdu.size > self.size:
            raise Fault("Size", "2.2", proposed=self.size, found=tpdu.size)
        if tpdu.kind in ("CR", "CC"):
            self.size = tpdu.size
        if tpdu.kind == "DT" and len(tpdu.user) > self.size - 5:
            raise Fault("Segment", "2.2", max=self.size - 5, found=len(tpdu.user))


def _reason_of_disconnect(side, user):
    """The DI in the user data of a DR; anything else there, or a DI with another direction flag, releases with 2.1."""
    try:
        sapdu = safety.read_sapdu(user)
    except Fault as fault:
        raise Fault(fault.name, "2.1", **fault.numbers) from fault
    if sapdu.kind != "DI" or sapdu.sender != side:
        raise Fault("no DI of the sender in DR", "2.1")
    return sapdu


def _safety_rules(side, place, sapdu):
    """Direction flag, the kind of this place (None where it isn't known) in its direction, and the safety feature. A DI may stand at any."""
    if sapdu.sender != side:
        raise Fault("direction flag", "4.2", found=sapdu.flag)
    if place is not None and sapdu.kind not in ("DI", SAPDUS[side][min(place, 2)]):
        raise Fault("Unexpected", "5.1", sapdu=sapdu.kind)
    if sapdu.feature not in (None, 1):
        raise Fault("safety feature", "3.6", found=sapdu.feature)


def _alone(information):
    """What a payload by itself shows: its TPDU, where it is a whole one, and no message."""
    carried = Carried()
    try:
        more, octets = network.read_block(information)
        carried.part = more
        if not more:
            carried.tpdu = transport.read_tpdu(octets)
            if carried.tpdu.kind in ("CR", "CC", "DR") and carried.tpdu.user:
                carried.sapdu = safety.read_sapdu(carried.tpdu.user)
    except Fault as fault:
        carried.fault = fault
    return carried
