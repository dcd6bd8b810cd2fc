"""The decoder against vectors worked from the standards' tables and this profile's rules."""
import random

from decoding import controls, framing, network, safety, transport
from judge import fault_of


def hexes(text):
    return bytes.fromhex(text)


def divided(octets):
    """The check sequence as a division of polynomials, bit by bit: the remainder of the message and the preset, complemented."""
    bits = [octet >> place & 1 for octet in octets for place in range(8)] + [0] * 16
    for place in range(16):
        bits[place] ^= 1
    for place in range(len(bits) - 16):
        if bits[place]:
            for power in (16, 12, 5, 0):
                bits[place + 16 - power] ^= 1
    return sum((1 - bit) << place for place, bit in enumerate(bits[-16:]))


def check_sequences(judge):
    judge.same("the check sequence of 123456789", f"{framing.check_sequence(b'123456789'):04x}", "906e")
    judge.same("the residue", framing.check_sequence(b"123456789" + hexes("6e90")) ^ 0xFFFF, 0xF0B8)
    draw = random.Random(1)
    texts = [bytes(draw.randrange(256) for _ in range(length)) for length in list(range(2, 40)) + [300]]
    judge.same("check sequences as divisions", [framing.check_sequence(text) for text in texts], [divided(text) for text in texts])


def verdicts(octets):
    return [(frame.verdict, frame.content.hex()) for frame in framing.frames_of(octets)]


def frames(judge):
    rows = [("7e013febdf7e", [("intact", "013febdf")]),
            ("7e013feadf7e", [("bad check sequence", "013feadf")]),
            ("7e013f7ddf7e", [("too short", "013fff")]),
            ("7e017e", [("too short", "01")]),
            ("7e017d7e", [("aborted", "01")]),
            ("7e7d7e", [("aborted", "")]),
            ("7e013febdf7d7e", [("aborted", "013febdf")]),
            ("7e7e7e", []),
            ("", []),
            ("013febdf7e", []),
            ("ffff7e013febdf7e", [("intact", "013febdf")]),
            ("7e013febdf7e017383577e", [("intact", "013febdf"), ("intact", "01738357")]),
            ("7e013febdf7e7e7e017383577e", [("intact", "013febdf"), ("intact", "01738357")]),
            ("7e013febdf7e0173", [("intact", "013febdf")]),
            ("7e7d5d7d7d7d007d5e7e", [("bad check sequence", "7d5d207e")]),
            ("7e7d217d1f7dcb7dff7e", [("intact", "013febdf")])]
    for line, wanted in rows:
        judge.same(f"frames of {line}", verdicts(hexes(line)), wanted)
    longest = bytes([1]) + bytes(1029)
    judge.same("a content of 1,032 octets", [frame.verdict for frame in framing.frames_of(framing.spelled(longest))], ["intact"])
    over = framing.frames_of(framing.spelled(longest + b"\0"))[0]
    judge.same("a content of 1,033 octets", (over.verdict, over.length, len(over.content)), ("too long", 1033, 1033))
    far = framing.frames_of(b"\x7e" + bytes(5000) + b"\x7d\x00\x7e")[0]
    judge.same("a content of 5,001 octets", (far.verdict, far.length, len(far.content)), ("too long", 5001, 1033))
    cut = framing.frames_of(b"\x7e" + bytes(5000) + b"\x7d\x7e")[0]
    judge.same("a long one that is aborted", (cut.verdict, cut.length), ("aborted", 5000))


def hostile_stream(draw):
    """Octets among which flags and escapes are many, with whole frames in them."""
    parts = []
    for _ in range(60):
        if draw.random() < 0.3:
            parts.append(framing.spelled(bytes(draw.choice((0x7D, 0x7E, 1, 0x5E)) for _ in range(draw.randrange(2, 12)))))
        else:
            parts.append(bytes(draw.choice((0x7D, 0x7E, 1, 1, 0x3F, 0xEB, 0xDF)) for _ in range(draw.randrange(12))))
    return b"".join(parts)


def cuts(judge):
    """However a stream is cut into pieces, its frames are the same; the marks are those of the pieces."""
    draw = random.Random(2)
    stream = hostile_stream(draw)
    whole = framing.frames_of(stream)
    judge.same("a hostile stream has frames of each kind that fits", len({frame.verdict for frame in whole}), 4)
    bad = []
    for place in range(len(stream) + 1):
        deframer = framing.Deframer()
        got = deframer.feed(stream[:place]) + deframer.feed(stream[place:])
        if got != whole:
            bad.append(place)
    judge.none("a stream in two pieces", bad)
    deframer = framing.Deframer()
    got = [frame for octet in stream for frame in deframer.feed(bytes([octet]))]
    judge.same("a stream octet by octet", got, whole)
    deframer = framing.Deframer()
    deframer.feed(hexes("ff"), 1)
    got = deframer.feed(hexes("ff7e01"), 2) + deframer.feed(hexes("3feb"), 3) + deframer.feed(hexes("df7e0173"), 4)
    judge.same("marks", [(frame.begun, frame.closed) for frame in got], [(2, 4)])
    judge.same("what is open and dropped", (deframer.open, deframer.begun, deframer.dropped, deframer.dropped_at), (True, 4, 2, 1))


def spellings(judge):
    draw = random.Random(3)
    texts = [bytes(draw.choice((0x7D, 0x7E, 0x5D, 0x20, draw.randrange(256))) for _ in range(length)) for length in range(2, 200)]
    got = [frame.without_check for text in texts for frame in framing.frames_of(framing.spelled(text))]
    judge.same("what was spelled is read", got, texts)
    judge.same("a spelled frame", framing.spelled(hexes("017e7d")).hex(), "7e017d5e7d5d" + "{:02x}{:02x}".format(
        *divided(hexes("017e7d")).to_bytes(2, "little")) + "7e")


def table_at_8():
    """Each control octet of modulo 8, spelled forward from the rows of the table."""
    rows = {}
    for poll in (0, 1):
        for receive in range(8):
            for send in range(8):
                rows[send * 2 + receive * 0x20 + poll * 0x10] = ("I", bool(poll), send, receive)
            for first, name in ((1, "RR"), (5, "RNR"), (9, "REJ"), (0x0D, "SREJ")):
                rows[first + receive * 0x20 + poll * 0x10] = (name, bool(poll), None, receive)
        for first, name in ((0x2F, "SABM"), (0x43, "DISC"), (0x63, "UA"), (0x0F, "DM"), (0x87, "FRMR")):
            rows[first + poll * 0x10] = (name, bool(poll), None, None)
    return rows


def table_at_128():
    rows = {}
    for poll in (0, 1):
        for receive in range(128):
            for send in range(128):
                rows[bytes([send * 2, receive * 2 + poll])] = ("I", bool(poll), send, receive)
            for first, name in ((1, "RR"), (5, "RNR"), (9, "REJ"), (0x0D, "SREJ")):
                rows[bytes([first, receive * 2 + poll])] = (name, bool(poll), None, receive)
        for first, name in ((0x6F, "SABME"), (0x43, "DISC"), (0x63, "UA"), (0x0F, "DM"), (0x87, "FRMR")):
            rows[bytes([first + poll * 0x10])] = (name, bool(poll), None, None)
    return rows


def fields_of(control):
    return control and (control.name, control.poll, control.send, control.receive)


def control_fields(judge):
    rows = table_at_8()
    judge.none("each control octet at modulo 8", (octet for octet in range(256)
                                                  if fields_of(controls.read_control(bytes([octet, 0xFF]))) != rows.get(octet)))
    rows = table_at_128()
    bad = []
    for first in range(256):
        for second in range(256):
            control = controls.read_control(bytes([first, second]), 128)
            wanted = rows.get(bytes([first, second])) or rows.get(bytes([first]))
            if fields_of(control) != wanted or control and control.octets != (1 if bytes([first]) in rows else 2):
                bad.append((first, second))
    judge.none("each control field at modulo 128", bad)
    judge.same("no control octet", controls.read_control(b""), None)
    judge.same("one octet of two", controls.read_control(b"\0", 128), None)
    judge.same("one octet of an S field", controls.read_control(b"\1", 128), None)
    judge.same("a control in words", str(controls.read_control(b"\x70")), "I 0 3 P/F")
    senders = [("013f", "e"), ("0173", "r"), ("0373", "e"), ("0100", "e"), ("0300", "r"), ("0101", "r"), ("0301", "e"), ("0501", None)]
    judge.same("who sends a frame", [controls.sender_by_address(a, controls.read_control(bytes([b]))) for a, b in
                                     (hexes(pair) for pair, _ in senders)], [side for _, side in senders])


def blocks(judge):
    judge.same("a last block", network.read_block(hexes("0100aa")), (False, b"\xaa"))
    judge.same("a block with more behind", network.read_block(hexes("0180")), (True, b""))
    for octets, found, first, second in (("", 0, "00", "00"), ("01", 1, "01", "00"), ("0200", 2, "02", "00"), ("0140ff", 3, "01", "40")):
        judge.same(f"the block {octets}", fault_of(network.read_block, hexes(octets)),
                   ("Header", {"found": found, "first": first, "second": second}, "2.4"))
    joiner = network.Joiner()
    judge.same("three blocks", [joiner.add(hexes(block)) for block in ("018001", "0180", "01000203")], [None, None, hexes("010203")])
    joiner.add(hexes("0180") + bytes(1000))
    judge.same("joined octets above 1,024", fault_of(joiner.add, hexes("0100") + bytes(25)), ("Long", {"octets": 1025}, "2.4"))
    judge.same("nothing is held behind a fault", joiner.add(hexes("0100") + bytes(1024)), bytes(1024))


def tpdu_fields(octets):
    tpdu = transport.read_tpdu(hexes(octets))
    given = {name: getattr(tpdu, name) for name in ("destination", "source", "credit", "size", "number", "last", "reason")}
    given.update(user=tpdu.user.hex(), parameters=[(code, value.hex()) for code, value in tpdu.parameters])
    return dict({name: value for name, value in given.items() if value not in (None, "", [])}, kind=tpdu.kind)


TPDUS = [
    ("09ef0000000120c0010742ff", dict(kind="CR", credit=15, destination=0, source=1, size=128, parameters=[(0xC0, "07")], user="42ff")),
    ("06e50000000120", dict(kind="CR", credit=5, destination=0, source=1, size=128)),
    ("0ce10000000120c00109c60155", dict(kind="CR", credit=1, destination=0, source=1, size=512, parameters=[(0xC0, "09"), (0xC6, "55")])),
    ("0cd30001000120c10107c0010a24", dict(kind="CC", credit=3, destination=1, source=1, size=1024,
                                            parameters=[(0xC1, "07"), (0xC0, "0a")], user="24")),
    ("09d10001000120c2010724", dict(kind="CC", credit=1, destination=1, source=1, size=128, parameters=[(0xC2, "07")], user="24")),
    ("06800001000180", dict(kind="DR", destination=1, source=1, reason=0x80)),
    ("09800001000180e00161101307", dict(kind="DR", destination=1, source=1, reason=0x80, parameters=[(0xE0, "61")], user="101307")),
    ("05c000010001", dict(kind="DC", destination=1, source=1)),
    ("04f000018306", dict(kind="DT", destination=1, number=3, last=True, user="06")),
    ("04f000017fff", dict(kind="DT", destination=1, number=127, last=False, user="ff")),
    ("0467000105", dict(kind="AK", credit=7, destination=1, number=5)),
    ("0470000103", dict(kind="ER", destination=1, reason=3)),
    ("0a70000103c00107c10108", dict(kind="ER", destination=1, reason=3, parameters=[(0xC0, "07"), (0xC1, "08")]))]


def tpdus(judge):
    for octets, wanted in TPDUS:
        judge.same(f"the TPDU {octets}", tpdu_fields(octets), wanted)


TPDU_FAULTS = [
    ("", "Empty", {}),
    ("00", "Length", {"li": 0, "found": 1}), ("ff" + "00" * 300, "Length", {"li": 255, "found": 301}),
    ("04f00001", "Length", {"li": 4, "found": 4}), ("0120", "Code", {"octet": "20"}), ("0281ff", "Code", {"octet": "81"}),
    ("0100", "Code", {"octet": "00"}), ("01f0", "Length", {"li": 1, "found": 2}),
    ("04c0000100", "Length", {"li": 4, "found": 5}), ("05f00001808000", "Length", {"li": 5, "found": 7}),
    ("05e000000001", "Length", {"li": 5, "found": 6}), ("0370000100", "Length", {"li": 3, "found": 5}),
    ("06e00000000141", "Class", {"octet": "41"}), ("06e00000000121", "Class", {"octet": "21"}), ("09d00001000100c00107", "Class", {"octet": "00"}),
    ("07e00000000120c0", "Parameter", {"code": "c0"}), ("08e00000000120c502", "Parameter", {"code": "c5"}),
    ("08e00000000120c000", "Parameter", {"code": "c0"}), ("0ae00000000120c0020707", "Parameter", {"code": "c0"}),
    ("0ce00000000120c00107c00107", "Parameter", {"code": "c0"}), ("09d00001000120c60107", "Parameter", {"code": "c6"}),
    ("09800001000180c10107", "Parameter", {"code": "c1"}), ("09e00000000120c00106", "Value", {"code": "c0", "octet": "06"}),
    ("0ce00000000120c0010ec00107", "Parameter", {"code": "c0"}),
    ("09d00001000120c0010e", "Value", {"code": "c0", "octet": "0e"}), ("0460000180", "Value", {"code": "60", "octet": "80"}),
    ("04f0000180", "UserData", {"max": 1019, "found": 0}), ("04f0000180" + "00" * 1020, "UserData", {"max": 1019, "found": 1020}),
    ("0460000100aa", "UserData", {"max": 0, "found": 1}), ("05c000010001aa", "UserData", {"max": 0, "found": 1}),
    ("0470000100aa", "UserData", {"max": 0, "found": 1}), ("06e00000000120" + "00" * 33, "UserData", {"max": 32, "found": 33}),
    ("06d00001000120" + "00" * 33, "UserData", {"max": 32, "found": 33}),
    ("06800001000180" + "00" * 65, "UserData", {"max": 64, "found": 65})]


def tpdu_faults(judge):
    for octets, name, numbers in TPDU_FAULTS:
        judge.same(f"the TPDU {octets[:40]}", fault_of(transport.read_tpdu, hexes(octets)), (name, numbers, "2.2"))


def messages(judge):
    def segment(number, last, user):
        return transport.read_tpdu(bytes([4, 0xF0, 0, 1, number | (0x80 if last else 0)]) + user)
    joiner = transport.MessageJoiner()
    judge.same("a message of two segments", [joiner.add(segment(0, False, b"a")), joiner.add(segment(1, True, b"b"))], [None, b"ab"])
    joiner.add(segment(2, False, b"c"))
    judge.same("a number that is left out", fault_of(joiner.add, segment(4, True, b"d")), ("Number", {"expected": 3, "found": 4}, "2.2"))
    judge.same("numbers go on behind it", joiner.add(segment(5, True, b"e")), b"e")
    joiner.add(segment(6, False, bytes(1000)))
    judge.same("a message of 1,032 octets", joiner.add(segment(7, True, bytes(32))), bytes(1032))
    joiner.add(segment(8, False, bytes(1000)))
    judge.same("a message above 1,032 octets", fault_of(joiner.add, segment(9, False, bytes(33))), ("Message", {"octets": 1033}, "2.3"))
    judge.same("nothing is held behind it", joiner.add(segment(10, True, b"f")), b"f")
    joiner = transport.MessageJoiner()
    got = [joiner.add(segment(count % 128, True, bytes([count % 256]))) for count in range(300)]
    judge.same("numbers modulo 128", got, [bytes([count % 256]) for count in range(300)])


def sapdu_fields(octets):
    sapdu = safety.read_sapdu(hexes(octets))
    given = {name: getattr(sapdu, name) for name in ("number", "feature", "reason", "sub")}
    given.update({name: getattr(sapdu, name).hex() for name in ("random", "mac", "user") if getattr(sapdu, name) is not None})
    return dict({name: value for name, value in given.items() if value is not None}, kind=sapdu.kind, flag=sapdu.flag, ety=sapdu.ety,
                mti=sapdu.mti)


SAPDUS = [
    ("42000005010102030405060708", dict(kind="AU1", ety=2, mti=1, number=5, feature=1, random="0102030405060708")),
    ("24fffffe011122334455667788bd1745640dd6c194", dict(kind="AU2", ety=1, mti=2, number=0xFFFFFE, feature=1,
                                                        random="1122334455667788", mac="bd1745640dd6c194")),
    ("06cf4775838533c548", dict(kind="AU3", ety=0, mti=3, mac="cf4775838533c548")),
    ("12375aa073c805b03c", dict(kind="AR", ety=0, mti=9, mac="375aa073c805b03c")),
    ("0a41cf4775838533c548", dict(kind="DT", ety=0, mti=5, user="41", mac="cf4775838533c548")),
    ("0a" + "ab" * 1023 + "00" * 8, dict(kind="DT", ety=0, mti=5, user="ab" * 1023, mac="00" * 8)),
    ("100307", dict(kind="DI", ety=0, mti=8, reason=3, sub=7))]

SAPDU_FAULTS = [
    ("", "Short", {"need": 1, "found": 0}), ("ff", "Kind", {"header": "ff"}), ("42", "Short", {"need": 13, "found": 1}),
    ("24" + "00" * 19, "Short", {"need": 21, "found": 20}), ("06" + "00" * 7, "Short", {"need": 9, "found": 8}),
    ("13" + "00" * 9, "Long", {"max": 9, "found": 10}), ("0a" + "00" * 8, "Short", {"need": 10, "found": 9}),
    ("0b" + "00" * 1032, "Long", {"max": 1032, "found": 1033}), ("1000", "Short", {"need": 3, "found": 2}),
    ("10000000", "Long", {"max": 3, "found": 4}), ("43" + "00" * 13, "Long", {"max": 13, "found": 14})]


def sapdus(judge):
    for octets, wanted in SAPDUS:
        for flag in (0, 1):
            spelled = f"{int(octets[:2], 16) + flag:02x}{octets[2:]}"
            judge.same(f"the SaPDU {spelled[:40]}", sapdu_fields(spelled), dict(wanted, flag=flag))
    kinds = {0x42, 0x43, 0x24, 0x25, 0x06, 0x07, 0x12, 0x13, 0x0A, 0x0B, 0x10, 0x11}
    judge.none("each header octet", (octet for octet in range(256)
                                     if (fault_of(safety.read_sapdu, bytes([octet] * 2)) or ("",))[0] != ("Short" if octet in kinds else "Kind")))
    for octets, name, numbers in SAPDU_FAULTS:
        judge.same(f"the SaPDU {octets[:40]}", fault_of(safety.read_sapdu, hexes(octets)), (name, numbers, "5.2"))


def run(judge):
    for part in (check_sequences, frames, cuts, spellings, control_fields, blocks, tpdus, tpdu_faults, messages, sapdus):
        part(judge)
