#!/usr/bin/env python3
"""Faults of every layer, each on a link of its own behind a beginning of a good set-up.

Usage: faults.py drill       prints a drill in which each link's end is given its faults
       faults.py tap         prints the same frames as a tap, as the ends got them
       faults.py mutants      prints a tap of 3,000 of these frames, each altered, cut or lengthened at random places, always the same
       faults.py agree DRILLED DISSECTED
                             holds what the drill printed against what the dissector found: lines of interface, release, release by peer

`agree` tells each link on which both differ from each other or from the table, and how many agreed.
"""
import os
import random
import sys

sys.path.insert(0, os.path.join(os.path.dirname(os.path.abspath(__file__)), "..", "..", "tools"))
from decoding import framing  # noqa: E402

KEY = "0123456789abcdef23456789abcdef01456789abcdef0123"
RA, RB = "1122334455667788", "0102030405060708"
AU1 = "4200000501" + RB
AU2 = "2500000901" + RA + "bd1745640dd6c194"
HELLO = "0a48454c4c4f5244cbe51fa10045"
SET_UP = [("e", "013f"), ("r", "0173"), ("e", "0100010009ef0000000120c00107" + AU1), ("r", "0320010009df0001000120c00107" + AU2),
          ("e", "0122010004f000018006cf4775838533c548"), ("r", "03420100046f000101"), ("e", "0341"),
          ("r", "0344010004f00001801375aa073c805b03c0"), ("e", "01640100046f000101"), ("r", "0161")]
WHOLE = len(SET_UP)


def i(place, block, ns=3, nr=3, address="01"):
    """The I frame that is `place` behind the one with number ns."""
    return f"{address}{(ns + place) % 8 << 1 | nr << 5:02x}{block}"


def tpdu(octets):
    """One I frame of the engine behind the set-up, with this TPDU."""
    return [i(0, "0100" + octets)]


def dt(number, user, last=True):
    return f"04f00001{number | last << 7:02x}{user}"


def cr(octets):
    """The first I frame of the engine, with this TPDU."""
    return [i(0, "0100" + octets, 0, 0)]


def cc(octets):
    """The first I frame of the radio block centre, with this TPDU."""
    return [i(0, "0100" + octets, 0, 1, "03")]


# Name, how much of the set-up comes before, who sends, frames without check sequence (as they are on the line behind `!`), the release.
FAULTS = [
    # ISO/IEC 13239
    ("no frames", WHOLE, "e", ["!7e0166010004f0000181aaaa7e", "!7e01667d7e", "!7e0166aa7e", "!7e" + "41" * 1033 + "7e"], ""),
    ("unknown control", WHOLE, "e", ["016f"], "1.3"),
    ("SREJ", WHOLE, "e", ["036d"], "1.3"),
    ("RR with information", WHOLE, "e", ["036100"], "1.3"),
    ("DISC with information", WHOLE, "e", ["015300"], "1.3"),
    ("N(R) above what was sent", WHOLE, "e", ["0381"], "1.3"),
    ("SABM behind I frames", WHOLE, "e", ["013f"], "1.3"),
    ("SABM to the calling station", WHOLE, "r", ["033f"], "1.3"),
    ("DISC, and a frame behind it", WHOLE, "e", ["0153", i(0, "0100" + dt(1, HELLO))], "1.4"),
    ("DM", WHOLE, "r", ["011f"], "1.4"),
    ("FRMR", WHOLE, "r", ["0187666601"], "1.4"),
    ("another address", WHOLE, "e", ["0566010004f0000181" + HELLO], ""),
    ("an I frame with the sender's address", WHOLE, "e", ["0366010004f0000181" + HELLO], ""),
    ("UA where the link is up", WHOLE, "r", ["0173"], ""),
    ("an I frame while the link is set up", 1, "r", [i(0, "0100" + dt(0, HELLO), 0, 0, "03")], ""),
    ("an I frame behind a gap", WHOLE, "e", [i(1, "0100" + dt(1, HELLO)), i(0, "0100" + dt(1, HELLO))], ""),
    ("an I frame again", WHOLE, "e", [SET_UP[8][1]], ""),
    # ITU-T T.70
    ("block header 02 00", WHOLE, "e", [i(0, "0200" + dt(1, HELLO))], "2.4"),
    ("no block", WHOLE, "e", [i(0, "")], "2.4"),
    ("1,025 octets of blocks", WHOLE, "e", [i(0, "0180" + "00" * 1000), i(1, "0100" + "00" * 25)], "2.4"),
    ("a TPDU in two blocks", WHOLE, "e", [i(0, "0180" + dt(1, HELLO)[:14]), i(1, "0100" + dt(1, HELLO)[14:])], ""),
    # ITU-T X.224, octets
    ("no octet of a TPDU", WHOLE, "e", tpdu(""), "2.2"),
    ("LI 0", WHOLE, "e", tpdu("00f000018100"), "2.2"),
    ("LI past the TPDU", WHOLE, "e", tpdu("05f0000181"), "2.2"),
    ("code 20", WHOLE, "e", tpdu("0420000181"), "2.2"),
    ("DT with LI 5", WHOLE, "e", tpdu("05f00001810041"), "2.2"),
    ("DR with LI 5", WHOLE, "e", tpdu("058000010001"), "2.2"),
    ("CR of class 41", 2, "e", cr("06ef0000000141" + AU1), "2.2"),
    ("a parameter past the header", 2, "e", cr("08ef0000000120c002"), "2.2"),
    ("TPDU size twice", 2, "e", cr("0cef0000000120c00107c00107" + AU1), "2.2"),
    ("TPDU size of two octets", 2, "e", cr("0aef0000000120c0020707" + AU1), "2.2"),
    ("a checksum in CC", 3, "r", cc("0adf0001000120c3020000" + AU2), "2.2"),
    ("TPDU size 06", 2, "e", cr("09ef0000000120c00106" + AU1), "2.2"),
    ("parameters that are skipped", 2, "e", cr("0cef0000000120c10141c00107" + AU1), ""),
    ("YR-TU-NR with its top bit", WHOLE, "e", tpdu("046f000181"), "2.2"),
    ("DT without user data", WHOLE, "e", tpdu(dt(1, "")), "2.2"),
    ("DC with user data", WHOLE, "e", tpdu("05c00001000100"), "2.2"),
    ("33 octets of user data in CR", 2, "e", cr("06ef0000000120" + "42" * 33), "2.2"),
    # ITU-T X.224, procedures
    ("DST-REF 0002", WHOLE, "e", tpdu("04f0000281" + HELLO), "2.2"),
    ("DST-REF 0001 in CR", 2, "e", cr("09ef0001000120c00107" + AU1), "2.2"),
    ("DT before CR", 2, "e", cr(dt(0, HELLO)), "2.2"),
    ("a second CR", WHOLE, "e", tpdu("09ef0000000120c00107" + AU1), "2.2"),
    ("CC to the called side", WHOLE, "e", tpdu("09df0001000120c00107" + AU2), "2.2"),
    ("DC", WHOLE, "e", tpdu("05c000010001"), "2.2"),
    ("ER", WHOLE, "e", tpdu("0470000102"), "2.2"),
    ("a larger size in CC", 3, "r", cc("09df0001000120c00108" + AU2), "2.2"),
    ("AK of what wasn't sent", WHOLE, "e", tpdu("046f000105"), "2.2"),
    ("AK that lowers the edge", WHOLE, "e", tpdu("0460000101"), "2.2"),
    ("DT with another number", WHOLE, "e", tpdu(dt(2, HELLO)), "2.2"),
    ("DT at the upper edge", WHOLE, "e", [i(n, "0100" + dt(n + 1, HELLO)) for n in range(16)], "2.2"),
    ("DT longer than the size", WHOLE, "e", tpdu(dt(1, "ab" * 124)), "2.2"),
    ("a message of 1,033 octets", WHOLE, "e",
     [i(n, "0100" + dt(n + 1, "ab" * 123, False)) for n in range(8)] + [i(8, "0100" + dt(9, "ab" * 49))], "2.3"),
    ("DR without user data", WHOLE, "e", tpdu("06800001000185"), "2.1"),
    ("DR with a DI of the other flag", WHOLE, "e", tpdu("06800001000180110007"), "2.1"),
    ("DR with a DI", WHOLE, "e", tpdu("06800001000180100007"), "0.7 by peer"),
    # UNISIG SUBSET-037
    ("SaPDU header ff", WHOLE, "e", tpdu(dt(1, "ff")), "5.2"),
    ("a DT SaPDU of 9 octets", WHOLE, "e", tpdu(dt(1, "0a" + "00" * 8)), "5.2"),
    ("CR without user data", 2, "e", cr("09ef0000000120c00107"), "5.2"),
    ("the other direction flag", WHOLE, "e", tpdu(dt(1, "0b41" + "00" * 8)), "4.2"),
    ("AU1 where DT is awaited", WHOLE, "e", tpdu(dt(1, AU1)), "5.1"),
    ("DT where AR is awaited", 5, "r", [i(0, "0100" + dt(0, "0b41" + "00" * 8), 1, 2, "03")], "5.1"),
    ("safety feature 2 in AU1", 2, "e", cr("09ef0000000120c001074200000502" + RB), "3.6"),
    ("safety feature 2 in AU2", 3, "r", cc("09df0001000120c001072500000902" + RA + "bd1745640dd6c194"), "3.6"),
    ("DI in DT", WHOLE, "e", tpdu(dt(1, "100004")), "0.4 by peer"),
]


def on_line(frame):
    return frame[1:] if frame.startswith("!") else framing.spelled(bytes.fromhex(frame)).hex()


def drill():
    print("drill 1 full")
    for link, (name, behind, side, frames, _) in enumerate(FAULTS, 1):
        print(f"# {name}\nlink {link} 5 9 {KEY} {KEY} {RA} {RB}\ndrain {link} {behind}")
        for frame in frames:
            print(f"put {link} {side} {on_line(frame)}\npass {link} {side}")


def tap():
    print("tap 1")
    for link, (name, behind, side, frames, _) in enumerate(FAULTS, 1):
        print(f"# {name}\nlink {link} 5 9 0")
        for sender, frame in SET_UP[:behind] + [(side, frame) for frame in frames]:
            print(f"octets {link} {sender} {on_line(frame)}")


def mutant(draw, frame):
    octets = bytearray(frame)
    for _ in range(draw.randrange(4)):
        octets[draw.randrange(len(octets))] ^= 1 << draw.randrange(8)
    place = draw.randrange(len(octets) + 1)
    change = draw.randrange(8)
    if change == 0:
        del octets[place:]
    elif change == 1:
        octets[place:place] = draw.randbytes(draw.randrange(1, 9))
    return bytes(octets) + bytes(max(0, 2 - len(octets)))


def mutants():
    draw = random.Random(37)
    frames = SET_UP + [(side, frame) for _, _, side, faults, _ in FAULTS for frame in faults if not frame.startswith("!")]
    print("tap 1")
    for link in range(1, 101):
        print(f"link {link} 5 9 0")
        behind = draw.randrange(WHOLE + 1)
        for side, frame in SET_UP[draw.choice([0, draw.randrange(behind + 1)]):behind]:
            print(f"octets {link} {side} {on_line(frame)}")
        for _ in range(30):
            side, frame = draw.choice(frames)
            print(f"octets {link} {side} {on_line(mutant(draw, bytes.fromhex(frame)).hex())}")


def drilled_releases(path):
    """The first release of each link, of the end that was given the faults."""
    releases = {}
    for words in map(str.split, open(path, encoding="ascii")):
        if len(words) == 6 and words[2] == "released" and words[1] != FAULTS[int(words[0]) - 1][2]:
            releases.setdefault(int(words[0]), f"{words[3]}.{words[4]}" + (" by peer" if words[5] == "peer" else ""))
    return releases


def dissected_releases(path):
    releases = {}
    for interface, release, by_peer in (line.rstrip("\n").split("\t") for line in open(path, encoding="ascii")):
        if release or by_peer:
            releases.setdefault(int(interface.split()[1]), release or by_peer + " by peer")
    return releases


def agree(drilled, dissected):
    ends, marks, differ = drilled_releases(drilled), dissected_releases(dissected), 0
    for link, (name, _, _, _, wanted) in enumerate(FAULTS, 1):
        if not ends.get(link, "") == marks.get(link, "") == wanted:
            print(f"link {link}, {name}: the end {ends.get(link)}, the dissector {marks.get(link)}, wanted {wanted}")
            differ += 1
    print(f"{len(FAULTS) - differ} agree, {differ} differ")


{"drill": drill, "tap": tap, "mutants": mutants, "agree": agree}[sys.argv[1]](*sys.argv[2:])
