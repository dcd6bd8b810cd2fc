"""Network blocks: the header of two octets of ITU-T T.70, 01 and then 00, or 80 where more of the same TPDU follows in the next block."""
from .faults import Fault

LONGEST = 1024
KIND = 0x01
LAST = 0x00
MORE = 0x80


def read_block(octets):
    """(whether more follows, what is behind the header). Raises Fault Header where there is no such header."""
    first = octets[0] if octets else 0
    second = octets[1] if len(octets) > 1 else 0
    if len(octets) < 2 or first != KIND or second not in (LAST, MORE):
        raise Fault("Header", "2.4", found=len(octets), first=f"{first:02x}", second=f"{second:02x}")
    return second == MORE, octets[2:]


class Joiner:
    """Joins the blocks of one direction to TPDUs."""

    def __init__(self):
        self.held = bytearray()

    def add(self, block):
        """A whole TPDU, or None where more follows. Raises Fault, and then holds nothing."""
        try:
            more, octets = read_block(block)
            if len(self.held) + len(octets) > LONGEST:
                raise Fault("Long", "2.4", octets=len(self.held) + len(octets))
        except Fault:
            self.held = bytearray()
            raise
        self.held += octets
        if more:
            return None
        whole, self.held = bytes(self.held), bytearray()
        return whole
