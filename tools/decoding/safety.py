"""SaPDUs of the safety layer: UNISIG SUBSET-037, the safety services; the octet values are this profile's.

The header octet has three bits ETY, four bits MTI and the direction flag, the least significant bit: 0 from the initiator (the engine), 1 from
the responder (the radio block centre). MACs are octets here: no key is known, so none is verified.
"""
from dataclasses import dataclass
from typing import Optional

from .faults import Fault

KINDS = {0x42: "AU1", 0x24: "AU2", 0x06: "AU3", 0x12: "AR", 0x0A: "DT", 0x10: "DI"}
LENGTHS = {"AU1": (13, 13), "AU2": (21, 21), "AU3": (9, 9), "AR": (9, 9), "DT": (10, 1032), "DI": (3, 3)}


@dataclass(frozen=True)
class SaPdu:
    """A SaPDU. `flag` is the direction flag; `number` the ETCS number of the sender; `random` is Rb in AU1 and Ra in AU2."""

    kind: str
    flag: int
    octets: bytes
    number: Optional[int] = None
    feature: Optional[int] = None
    random: Optional[bytes] = None
    mac: Optional[bytes] = None
    user: Optional[bytes] = None
    reason: Optional[int] = None
    sub: Optional[int] = None

    @property
    def sender(self):
        """'e' or 'r', as the direction flag says."""
        return "r" if self.flag else "e"

    @property
    def ety(self):
        return self.octets[0] >> 5

    @property
    def mti(self):
        return self.octets[0] >> 1 & 15


def read_sapdu(octets):
    """The SaPDU that these octets spell. Raises Fault Short, Kind or Long, in this order; an end releases with 5.2 for each."""
    if not octets:
        raise Fault("Short", "5.2", need=1, found=0)
    flag, kind = octets[0] & 1, KINDS.get(octets[0] & 0xFE)
    if kind is None:
        raise Fault("Kind", "5.2", header=f"{octets[0]:02x}")
    least, most = LENGTHS[kind]
    if len(octets) < least:
        raise Fault("Short", "5.2", need=least, found=len(octets))
    if len(octets) > most:
        raise Fault("Long", "5.2", max=most, found=len(octets))
    return SaPdu(kind, flag, bytes(octets), **_fields(kind, octets))


def _fields(kind, octets):
    if kind == "DI":
        return {"reason": octets[1], "sub": octets[2]}
    if kind in ("AU3", "AR"):
        return {"mac": octets[1:9]}
    if kind == "DT":
        return {"user": octets[1:-8], "mac": octets[-8:]}
    fields = {"number": int.from_bytes(octets[1:4], "big"), "feature": octets[4], "random": octets[5:13]}
    if kind == "AU2":
        fields["mac"] = octets[13:21]
    return fields
