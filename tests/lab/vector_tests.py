"""The vectors of the decoder's own tests, given to ends of the program: what an end makes of each is what the decoder reads."""
import random

from decoder_tests import SAPDUS, SAPDU_FAULTS, TPDUS, TPDU_FAULTS
from decoding import framing
from product_tests import KMAC, compared

LINKS = 60
BLOCKS = ["", "01", "0100", "0200", "0140ff", "0180ffff", "018004f000", "0000", "01000000"]

# Where an end stands when it is given a frame: the steps up to there, the side that sends, and N(S) and N(R) of its next I frame.
STAGES = {"the called end is up": ("pass {0} e", "e", 0, 0), "the calling end has sent its CR": ("pass {0} e\npass {0} r", "r", 0, 0),
          "the called end is connected": ("drain {0} 64", "e", 3, 3), "the calling end is connected": ("drain {0} 64", "r", 3, 3)}

# The same at level link, where a called end that is idle and a calling one that waits for its UA are tried too.
STATIONS = {"the called station is idle": ("lose {0} e", "e"), "the calling station waits for a UA": ("pass {0} e\nlose {0} r", "r"),
            "the called station is up": ("drain {0} 4", "e"), "the calling station is up": ("drain {0} 4", "r")}


def flipped(octets, side):
    """A SaPDU with the direction flag of this side."""
    return f"{int(octets[:2], 16) & 0xFE | (side == 'r'):02x}{octets[2:]}" if octets else ""


def payloads(side, connected):
    """The payloads that are tried, each a list of the information of I frames."""
    found = [[block] for block in BLOCKS] + [["0100" + row[0]] for row in TPDUS + TPDU_FAULTS]
    found += [["0180" + "00" * 1000, "0100" + "00" * last] for last in (24, 25)]
    for octets in [row[0] for row in SAPDUS + SAPDU_FAULTS] + [flipped(row[0], side) for row in SAPDUS + SAPDU_FAULTS]:
        if connected:
            cuts = [octets[place:place + 246] for place in range(0, len(octets), 246)] or [""]
            found.append([f"010004f00001{number + (0x80 if number == len(cuts) else 0):02x}{cut}" for number, cut in enumerate(cuts, 1)])
        elif len(octets) <= 64:
            found.append(["01000" + ("9ef00000001" if side == "e" else "9df00010001") + "20c00107" + octets])
        if len(octets) <= 128:
            found.append(["010006800001000180" + octets])
    return found


def frames_of(side, first, answer, parts):
    """These pieces of information as I frames, one behind the other."""
    address = 1 if side == "e" else 3
    return b"".join(framing.spelled(bytes([address, (first + place) % 8 * 2 + answer * 0x20]) + bytes.fromhex(part))
                    for place, part in enumerate(parts))


def tried(program, header, opening, steps, side, rows):
    """Gives each row of octets to an end of a link of its own; answers how many, and the faults that were found."""
    faults = []
    for place in range(0, len(rows), LINKS):
        lines = [header]
        for link, octets in enumerate(rows[place:place + LINKS], 1):
            lines += [opening.format(link), steps.format(link), f"put {link} {side} {octets.hex()}", f"pass {link} {side}", f"drain {link} 9"]
        faults += compared(program, "\n".join(lines) + "\n")[2]
    return faults


def all_layers(judge, program):
    opening = f"link {{0}} 5 9 {KMAC} {KMAC} 1122334455667788 0102030405060708"
    for name, (steps, side, first, answer) in STAGES.items():
        rows = [frames_of(side, first, answer, parts) for parts in payloads(side, first > 0)]
        judge.none(f"{len(rows)} payloads where {name}", tried(program, "drill 1 full", opening, steps, side, rows))


def stations(judge, program):
    """Each control octet, with both addresses, and with information behind it."""
    for name, (steps, side) in STATIONS.items():
        rows = [framing.spelled(bytes([address, octet])) for address in (1, 3) for octet in range(256)]
        rows += [framing.spelled(bytes([address, octet, 0xAA])) for octet in range(256) for address in (1, 3)
                 if octet & 0x11 in (0, 1) or octet & 3 == 3]
        judge.none(f"{len(rows)} controls where {name}", tried(program, "drill 1 link", "wire {0}", steps, side, rows))


def lengths(judge, program):
    """Frames of the greatest and least lengths, and aborted ones."""
    for name, (steps, side) in STATIONS.items():
        begin = bytes([1 if side == "e" else 3, 0])
        rows = [framing.spelled(begin + bytes(count)) for count in (0, 1, 1026, 1027, 1028, 1029, 1030, 1500)]
        rows += [bytes([0x7E]) + bytes(count) + bytes([0x7E]) for count in range(6)] + [framing.spelled(begin[:count]) for count in (0, 1)]
        rows += [row[:-1] + end for row in rows for end in (b"\x7d\x7e", b"\x7d\x5e\x7e")]
        judge.none(f"{len(rows)} lengths where {name}", tried(program, "drill 1 link", "wire {0}", steps, side, rows))


def stations_at_128(judge, program):
    draw = random.Random(7)
    for name, (steps, side) in STATIONS.items():
        rows = [framing.spelled(bytes([draw.choice((1, 3)), octet, *draw.choice(((), (0,), (0,), (1,), (2,), (0, 0xAA)))]))
                for octet in range(256)]
        judge.none(f"{len(rows)} controls of modulo 128 where {name}",
                   tried(program, "drill 1 link\nset modulo 128", "wire {0}", steps, side, rows))


def run(judge, program):
    for part in (all_layers, stations, lengths, stations_at_128):
        part(judge, program)
