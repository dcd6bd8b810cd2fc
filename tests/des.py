"""DES (FIPS 46-3) and the MAC of messages (ISO/IEC 9797-1, CBC, padding method 1), written from the standards' tables for clients of tests."""

IP = [58, 50, 42, 34, 26, 18, 10, 2, 60, 52, 44, 36, 28, 20, 12, 4, 62, 54, 46, 38, 30, 22, 14, 6, 64, 56, 48, 40, 32, 24, 16, 8,
      57, 49, 41, 33, 25, 17, 9, 1, 59, 51, 43, 35, 27, 19, 11, 3, 61, 53, 45, 37, 29, 21, 13, 5, 63, 55, 47, 39, 31, 23, 15, 7]
P = [16, 7, 20, 21, 29, 12, 28, 17, 1, 15, 23, 26, 5, 18, 31, 10, 2, 8, 24, 14, 32, 27, 3, 9, 19, 13, 30, 6, 22, 11, 4, 25]
PC1 = [57, 49, 41, 33, 25, 17, 9, 1, 58, 50, 42, 34, 26, 18, 10, 2, 59, 51, 43, 35, 27, 19, 11, 3, 60, 52, 44, 36,
       63, 55, 47, 39, 31, 23, 15, 7, 62, 54, 46, 38, 30, 22, 14, 6, 61, 53, 45, 37, 29, 21, 13, 5, 28, 20, 12, 4]
PC2 = [14, 17, 11, 24, 1, 5, 3, 28, 15, 6, 21, 10, 23, 19, 12, 4, 26, 8, 16, 7, 27, 20, 13, 2,
       41, 52, 31, 37, 47, 55, 30, 40, 51, 45, 33, 48, 44, 49, 39, 56, 34, 53, 46, 42, 50, 36, 29, 32]
SHIFTS = [1, 1, 2, 2, 2, 2, 2, 2, 1, 2, 2, 2, 2, 2, 2, 1]
BOXES = [
    "14 4 13 1 2 15 11 8 3 10 6 12 5 9 0 7 0 15 7 4 14 2 13 1 10 6 12 11 9 5 3 8 4 1 14 8 13 6 2 11 15 12 9 7 3 10 5 0 15 12 8 2 4 9 1 7 5 11 3 14 10 0 6 13",
    "15 1 8 14 6 11 3 4 9 7 2 13 12 0 5 10 3 13 4 7 15 2 8 14 12 0 1 10 6 9 11 5 0 14 7 11 10 4 13 1 5 8 12 6 9 3 2 15 13 8 10 1 3 15 4 2 11 6 7 12 0 5 14 9",
    "10 0 9 14 6 3 15 5 1 13 12 7 11 4 2 8 13 7 0 9 3 4 6 10 2 8 5 14 12 11 15 1 13 6 4 9 8 15 3 0 11 1 2 12 5 10 14 7 1 10 13 0 6 9 8 7 4 15 14 3 11 5 2 12",
    "7 13 14 3 0 6 9 10 1 2 8 5 11 12 4 15 13 8 11 5 6 15 0 3 4 7 2 12 1 10 14 9 10 6 9 0 12 11 7 13 15 1 3 14 5 2 8 4 3 15 0 6 10 1 13 8 9 4 5 11 12 7 2 14",
    "2 12 4 1 7 10 11 6 8 5 3 15 13 0 14 9 14 11 2 12 4 7 13 1 5 0 15 10 3 9 8 6 4 2 1 11 10 13 7 8 15 9 12 5 6 3 0 14 11 8 12 7 1 14 2 13 6 15 0 9 10 4 5 3",
    "12 1 10 15 9 2 6 8 0 13 3 4 14 7 5 11 10 15 4 2 7 12 9 5 6 1 13 14 0 11 3 8 9 14 15 5 2 8 12 3 7 0 4 10 1 13 11 6 4 3 2 12 9 5 15 10 11 14 1 7 6 0 8 13",
    "4 11 2 14 15 0 8 13 3 12 9 7 5 10 6 1 13 0 11 7 4 9 1 10 14 3 5 12 2 15 8 6 1 4 11 13 12 3 7 14 10 15 6 8 0 5 9 2 6 11 13 8 1 4 10 7 9 5 0 15 14 2 3 12",
    "13 2 8 4 6 15 11 1 10 9 3 14 5 0 12 7 1 15 13 8 10 3 7 4 12 5 6 11 0 14 9 2 7 11 4 1 9 12 14 2 0 6 10 13 15 3 5 8 2 1 14 7 4 10 8 13 15 12 9 0 3 5 6 11",
]
MASK = 0xFFFFFFFF


def picked(number, width, table):
    """The bits of a number of this width that a table names, the most significant one being 1."""
    picks = 0
    for place in table:
        picks = picks << 1 | number >> width - place & 1
    return picks


def _boxed(box, bits):
    """What P makes of the four bits that a box gives for six bits."""
    row, column = bits >> 4 & 2 | bits & 1, bits >> 1 & 15
    return picked(int(BOXES[box].split()[16 * row + column]) << 4 * (7 - box), 32, P)


def _by_octets(table):
    """For each octet of a block, and each value of it, what a permutation makes of it."""
    return [[picked(value << 8 * (7 - octet), 64, table) for value in range(256)] for octet in range(8)]


_BOXED = [[_boxed(box, bits) for bits in range(64)] for box in range(8)]
_FIRST = _by_octets(IP)
_LAST = _by_octets([IP.index(bit) + 1 for bit in range(1, 65)])


def _permuted(block, tables):
    octets = block.to_bytes(8, "big")
    return sum(table[octet] for table, octet in zip(tables, octets))


def schedule(key):
    """The sixteen round keys of a key, each as eight groups of six bits."""
    both = picked(key, 64, PC1)
    left, right = both >> 28, both & 0xFFFFFFF
    keys = []
    for shift in SHIFTS:
        left, right = ((half << shift | half >> 28 - shift) & 0xFFFFFFF for half in (left, right))
        bits = picked(left << 28 | right, 56, PC2)
        keys.append([bits >> 6 * (7 - group) & 63 for group in range(8)])
    return keys


def _enciphered(keys, block):
    block = _permuted(block, _FIRST)
    left, right = block >> 32, block & MASK
    one, two, three, four, five, six, seven, eight = _BOXED
    for a, b, c, d, e, f, g, h in keys:
        mixed = one[a ^ (right >> 27 | (right & 1) << 5)] ^ two[b ^ right >> 23 & 63] ^ three[c ^ right >> 19 & 63] ^ four[d ^ right >> 15 & 63]
        mixed ^= five[e ^ right >> 11 & 63] ^ six[f ^ right >> 7 & 63] ^ seven[g ^ right >> 3 & 63] ^ eight[h ^ ((right & 31) << 1 | right >> 31)]
        left, right = right, left ^ mixed
    return _permuted(right << 32 | left, _LAST)


class TripleKey:
    """Three keys of 8 octets each."""

    def __init__(self, octets):
        self.keys = [schedule(int.from_bytes(octets[at:at + 8], "big")) for at in (0, 8, 16)]

    def thrice(self, block, order=(0, 1, 2)):
        """A block enciphered, deciphered and enciphered under the keys in this order."""
        first, second, third = (self.keys[place] for place in order)
        return _enciphered(third, _enciphered(second[::-1], _enciphered(first, block)))

    def mac(self, text):
        """The MAC of a text, 8 octets: chained under the first key, the last block under all three."""
        text += bytes(-len(text) % 8)
        chained = 0
        for at in range(0, len(text) - 8, 8):
            chained = _enciphered(self.keys[0], chained ^ int.from_bytes(text[at:at + 8], "big"))
        return self.thrice(chained ^ int.from_bytes(text[-8:], "big")).to_bytes(8, "big")

    def session(self, ra, rb):
        """The session keys of a KMAC and both random numbers, 8 octets each."""
        left, right = (int.from_bytes(ra[at:at + 4] + rb[at:at + 4], "big") for at in (0, 4))
        keys = self.thrice(left), self.thrice(right), self.thrice(left, (2, 1, 0))
        return TripleKey(b"".join(key.to_bytes(8, "big") for key in keys))
