"""Addresses and control fields: ISO/IEC 13239, elements of procedure, for balanced operation at modulo 8 and at modulo 128.

A command bears the address of the station that is to take it, a response that of the station that sends it. The called station (the radio
block centre's) has the address 01, the calling one (the train's) 03.
"""
from dataclasses import dataclass
from typing import Optional

CALLED = 0x01
CALLING = 0x03
ADDRESSES = {"r": CALLED, "e": CALLING}

SUPERVISORY = ["RR", "RNR", "REJ", "SREJ"]
UNNUMBERED = {8: {0x2F: "SABM", 0x43: "DISC", 0x63: "UA", 0x0F: "DM", 0x87: "FRMR"},
              128: {0x6F: "SABME", 0x43: "DISC", 0x63: "UA", 0x0F: "DM", 0x87: "FRMR"}}
POLL = 0x10
COMMANDS = ("I", "SABM", "SABME", "DISC")
RESPONSES = ("UA", "DM", "FRMR")


@dataclass(frozen=True)
class Control:
    """A control field: its name, N(S) and N(R) where it has them, the P/F bit, and how many octets it takes."""

    name: str
    poll: bool
    send: Optional[int] = None
    receive: Optional[int] = None
    octets: int = 1

    def __str__(self):
        numbers = [str(number) for number in (self.send, self.receive) if number is not None]
        return " ".join([self.name] + numbers + (["P/F"] if self.poll else []))


def read_control(body, modulo=8):
    """The control field that a body begins with; None where it is none of this modulo's table."""
    if not body:
        return None
    first = body[0]
    if first & 3 == 3:
        name = UNNUMBERED[modulo].get(first & ~POLL)
        return Control(name, bool(first & POLL)) if name else None
    return _numbered_8(first) if modulo == 8 else _numbered_128(body)


def _numbered_8(octet):
    poll, receive = bool(octet & POLL), octet >> 5
    if octet & 1 == 0:
        return Control("I", poll, octet >> 1 & 7, receive)
    return Control(SUPERVISORY[octet >> 2 & 3], poll, None, receive)


def _numbered_128(body):
    if len(body) < 2:
        return None
    first, second = body[0], body[1]
    poll, receive = bool(second & 1), second >> 1
    if first & 1 == 0:
        return Control("I", poll, first >> 1, receive, 2)
    if first & 0xF0:
        return None
    return Control(SUPERVISORY[first >> 2 & 3], poll, None, receive, 2)


def sender_by_address(address, control):
    """'e' or 'r': which station sends this control with this address, own S frames being responses; None where the address is neither."""
    if address not in (CALLED, CALLING):
        return None
    command = control is not None and control.name in COMMANDS
    return "e" if (address == CALLED) == command else "r"
