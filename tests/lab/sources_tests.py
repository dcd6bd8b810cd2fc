"""The readers of texts, and whole conversations, on texts written here."""
from decoding import conversation, framing, sources

SABM, UA = "7e013febdf7e", "7e017383577e"
CR = "7e0100010009ef0000000120c0010742000005010102030405060708f7007e"
CC = "7e0320010009df0001000120c0010725000009011122334455667788bd1745640dd6c19468f17e"


def frame(address, body):
    return framing.spelled(bytes([address]) + bytes.fromhex(body)).hex()


def shown(link):
    """The items of a link, one a line."""
    return [" ".join(str(part) for part in (item.line, item.moment, item.kind, item.side, item.text, item.octets.hex()) if part not in (None, ""))
            for item in link.items]


def drills(judge):
    text = f"1 e frame {SABM}\n\n# a comment\n2 e frame {SABM}\n1 r frame {UA}\n1 r connected 5 forged\n1 e accepted 41 forged\n" \
           "1 e refused full 16\n1 e refused released 0 7\n1 r released 0 7 peer\n1 e empty\n1 e short 7\n1 passes 2\n1 r none\n" \
           "1 end passes 2 waiting 0 0\n! overfull 1 e 4096"
    reading = sources.read(text.encode())
    judge.same("a drill's text", (reading.kind, [link.name for link in reading.links], reading.bad), ("drill", ["link 1", "link 2"], []))
    judge.same("the lines of link 1", shown(reading.links[0]), [
        f"1 octets e frame {SABM}", f"5 octets r frame {UA}", "6 outcome r connected 5 forged", "7 outcome e accepted 41 forged 41",
        "8 outcome e refused full 16", "9 outcome e refused released 0 7", "10 outcome r released 0 7 peer", "11 outcome e empty",
        "12 outcome e short 7", "13 outcome passes 2", "14 outcome r none", "15 outcome end passes 2 waiting 0 0"])
    judge.same("what is said of the whole", [item.text for item in reading.notes], ["! overfull 1 e 4096"])
    judge.same("levels", [sources.read(text).links[0].level for text in
                          (f"1 e frame {SABM}", f"1 r up\n1 e frame {SABM}", "1 e frame 42000005010102030405060708")], ["full", "link", "safe"])


def traces(judge):
    text = f"trace 1 7 15 128 1000 5 40000\n> 3 1 call 5 9 0102030405060708\n< 1 octets {SABM}\n> 4 8 answer 9 1122334455667788\n" \
           f"> 5 1 octets {UA}\n< 1 octets {CR}\n> 6 1 send 41\n< 1 refused notconnected\n> 6 9 full 256\n> 7 8 octets -\n> 8 1 ended\n" \
           "< 1 released 1 5 local\n"
    reading = sources.read(text)
    judge.same("a trace", (reading.kind, [link.name for link in reading.links], reading.bad),
               ("trace", ["connection 1", "connection 8", "connection 9"], []))
    judge.same("its settings", reading.settings, {"window": 7, "credit": 15, "size": 128, "t1": 1000, "n2": 5, "setup": 40000})
    one = reading.links[0]
    judge.same("connection 1", (one.role, one.engine, one.rbc, one.level, [item.own for item in one.items]),
               ("e", 5, 9, "full", [False, True, False, True, False, True, False, True]))
    judge.same("its lines", shown(one), [
        "2 3 event e call 5 9 0102030405060708 0102030405060708", f"3 3 octets e octets {SABM}", f"5 5 octets r octets {UA}",
        f"6 5 octets e octets {CR}", "7 6 event e send 41 41", "8 6 outcome e refused notconnected", "11 8 event e ended",
        "12 8 outcome e released 1 5 local"])
    cut = sources.read(f"> 5 4 octets {SABM}\n< 4 octets {UA}\n")
    judge.same("a trace without its beginning", ([item.side for item in cut.links[0].items], [bad.line for bad in cut.bad]), (["e", "r"], [1]))
    cut = sources.read(f"> 5 4 octets {frame(3, '20')}\n< 4 octets {frame(3, '21')}\n")
    judge.same("its sides by the first frame", [item.side for item in cut.links[0].items], ["r", "e"])


def taps(judge):
    reading = sources.read(f"# a tap\ntap 1\nlink 3 5 9 77\noctets 3 e {SABM}\noctets 3 r {UA}\noctets 4 e {SABM}\nlink 3 5 9 78\n")
    judge.same("a tap", (reading.kind, [(link.name, link.engine, link.rbc, link.moment) for link in reading.links]),
               ("tap", [("link 3", 5, 9, 77), ("link 4", None, None, None)]))
    judge.same("its lines", shown(reading.links[0]), [f"4 octets e octets {SABM}", f"5 octets r octets {UA}"])
    judge.same("its bad lines", [str(bad) for bad in reading.bad],
               ["line 6: link 4 wasn't opened by a line before", "line 7: link 3 is opened twice"])


def bad_lines(judge):
    rows = [("1 e frame 7e0", "an odd number of digits: 7e0"), ("1 e frame 7g", "not hexadecimal: 7g"),
            ("1 e frame", "frame with other words than it takes: "), ("1 x frame 7e", "no side, e or r: x"),
            ("1 e fram 7e", "no word that a drill prints: fram"), ("one e frame 7e", "no decimal: one"), ("1", "a line without its word"),
            ("1 e released 0 7", "released with other words than it takes: 0 7"), ("1 passes x", "no decimal: x"),
            ("1 e frame \xb2\xb3", "not hexadecimal: \xb2\xb3"), ("\xb2 e frame 7e", "no decimal: \xb2")]
    for line, why in rows:
        reading = sources.read(f"1 e frame {SABM}\n{line}\n1 r frame {UA}\n".encode("latin-1"))
        judge.same(f"the bad line {line}", ([str(bad) for bad in reading.bad], [item.line for item in reading.links[0].items]),
                   ([f"line 2: {why}"], [1, 3]))
    rows = [("> 1 1", "an event without its word"), ("> 1 1 foo", "no word of an event: foo"), ("< 1 foo", "no word of an outcome: foo"),
            ("> x 1 tick", "no decimal: x"), ("> 1 1 octets 7", "an odd number of digits: 7"), ("> 1 1 tick 5", "tick with other words than it takes: 5"),
            ("> 1 1 answer 9 01", "not 16 digits: 01"), ("link 1", "no line of a trace: link"), ("> 0 1 call 5 9 0102030405060708", "connection 1 is opened twice"),
            (f"> {'9' * 5000} 1 tick", f"a number above {10 ** 15}: {'9' * 40}"), (f"< {2 ** 64} none", f"a number above {2 ** 64 - 1}: {2 ** 64}"),
            (f"> {10 ** 15 + 1} 1 tick", f"a number above {10 ** 15}: {10 ** 15 + 1}"), ("<", "an outcome without its word")]
    for line, why in rows:
        reading = sources.read(f"trace 1 7 15 128 1000 5 40000\n> 0 1 answer 9 0000000000000001\n{line}\n< 1 octets {UA}\n")
        judge.same(f"the bad line {line[:60]}", ([str(bad) for bad in reading.bad], len(reading.links[0].items)), ([f"line 3: {why}"], 2))
    judge.same("a bad header", [str(bad) for bad in sources.read("trace 2\n> 0 1 answer 9 0000000000000001\n").bad],
               ["line 1: no header of a trace: `trace 1` and six numbers are wanted; nothing behind it is read"])
    judge.same("a header without its numbers", [str(bad) for bad in sources.read("trace 1 7 15 128 x 5 40000\n> 0 1 answer 9 0000000000000001\n").bad],
               ["line 1: no header of a trace: no decimal: x; nothing behind it is read"])
    judge.same("a bad header of a tap", [bad.line for bad in sources.read("tap 2\nlink 1 5 9 0\n").bad], [1])
    judge.same("the steps of a drill", [str(bad) for bad in sources.read("drill 1 full\n").bad],
               ["line 1: the steps of a drill; what `euroradio drill` prints of them is wanted; nothing behind it is read"])
    reading = sources.read(bytes(range(256)) + b"\nno text\n1 e frame 7e\n")
    judge.same("no text, and then some", (reading.kind, [bad.line for bad in reading.bad], len(reading.links)), (None, [1], 0))
    judge.same("a capture", [str(bad) for bad in sources.read(b"\n\r\r\n\x1c\0\0\0\n1 e frame 7e\n").bad],
               ["line 1: a capture; a text is wanted, and tools/tap makes a tap of it"])
    judge.same("control octets", str(sources.read("1 e frame 7e\n\x1b[2J\x07 x\n").bad[0]), "line 2: no decimal: \\x1b[2J\\x07")
    away = sources.read("trace 1 7 15 128 1000 5 40000\n> 2 3 full 256\n> 3 3 ended\n< 3 released 1 5 local\n> 4 4 unserved 1\n> 5 4 answer 9 0000000000000001\n")
    judge.same("connections that were turned away", ([(link.name, link.away, len(link.items)) for link in away.links], [str(bad) for bad in away.bad]), (
        [("connection 3", True, 1), ("connection 4", True, 1)],
        ["line 3: connection 3 was turned away", "line 4: connection 3 was turned away", "line 6: connection 4 was turned away"]))
    judge.same("nothing at all", (sources.read(b"").kind, [str(bad) for bad in sources.read(b"").bad]), (None, ["line 1: no line"]))


def seen_of(talk, lines):
    """What a conversation makes of lines of a side and octets, in words."""
    words = []
    for side, octets in lines:
        for seen in talk.feed(side, bytes.fromhex(octets)):
            parts = [str(seen.control), "repeated" if seen.repeated else "", "part" if seen.carried and seen.carried.part else "",
                     seen.tpdu.kind if seen.tpdu else "", seen.sapdu.kind if seen.sapdu else "",
                     f"{seen.fault.name} {seen.fault.reason}" if seen.fault else ""]
            words.append(" ".join(part for part in parts if part))
    return words


def conversations(judge):
    opened = [("e", SABM), ("r", UA), ("e", CR), ("r", CC)]
    judge.same("a set-up", seen_of(conversation.Conversation(), opened), ["SABM P/F", "UA P/F", "I 0 0 CR AU1", "I 0 1 CC AU2"])
    talk = conversation.Conversation()
    seen_of(talk, opened)
    au3 = "06cf4775838533c548"
    rest = [("e", frame(1, "22010004f0000180" + au3)), ("e", CR), ("e", frame(1, "22010004f0000180" + au3)),
            ("e", frame(1, "24018004f00001")), ("e", frame(1, "26010081" + "0a41" + "00" * 8)),
            ("e", frame(1, "28010004f00001820a42" + "00" * 7)), ("e", frame(1, "2a010004f00001830b42" + "00" * 8)),
            ("e", frame(1, "2c010004f000018406" + "00" * 8)), ("e", frame(1, "2e020004")), ("e", frame(1, "20010006e0000000012010")),
            ("e", frame(1, "22010005c000010001")), ("e", frame(1, "24010004f0000190ff")), ("e", frame(3, "26")), ("e", frame(5, "26")),
            ("e", frame(1, "3f00")), ("e", frame(1, "ff")), ("e", frame(5, "ff")), ("r", frame(3, "0d")), ("r", frame(3, "3f")),
            ("r", frame(3, "22010006800001000180")), ("e", frame(1, "26010005c000010001"))]
    judge.same("what comes behind it", seen_of(talk, rest), [
        "I 1 1 DT AU3", "I 0 0 repeated CR AU1", "I 1 1 repeated DT AU3", "I 2 1 part", "I 3 1 DT DT",
        "I 4 1 DT Short 5.2", "I 5 1 DT DT direction flag 4.2", "I 6 1 DT AU3 Unexpected 5.1", "I 7 1 Header 2.4", "I 0 1 CR Unexpected 2.2",
        "I 1 1 DC Unexpected 2.2", "I 2 1 DT Number 2.2", "I 3 1 stray address None", "I 3 1 stray address None",
        "SABM P/F information 1.3", "None unknown control 1.3", "None stray address None", "SREJ 0 SREJ 1.3",
        "SABM P/F set-up frame at a calling station 1.3", "I 1 1 DR Short 2.1", "I 3 1 DC"])
    talk = conversation.Conversation()
    judge.same("a link at modulo 128", seen_of(talk, [("e", frame(1, "7f")), ("r", UA), ("e", frame(1, "000001aa"))]),
               ["SABME P/F", "UA P/F", "I 0 0 Header 2.4"])
    talk = conversation.Conversation(payloads=False)
    judge.same("payloads of the user's own", seen_of(talk, [("e", SABM), ("r", UA), ("e", frame(1, "00aa")), ("e", frame(1, "00aa"))]),
               ["SABM P/F", "UA P/F", "I 0 0", "I 0 0 repeated"])
    talk = conversation.Conversation()
    judge.same("a recording that begins in mid-life",
               seen_of(talk, [("e", frame(1, "46010004f0000185" + "0a41" + "00" * 8)), ("e", frame(1, "48010004f0000186" + "0a41" + "00" * 8)),
                              ("e", frame(1, "48010004f0000186" + "0a41" + "00" * 8)), ("r", frame(3, "680100046f000107"))]),
               ["I 3 2 DT DT", "I 4 2 DT DT", "I 4 2 repeated DT DT", "I 4 3 AK"])


def faults_behind_a_set_up(judge):
    """One frame behind the set-up frame and its UA, or behind them, CR and CC; and its fault."""
    au1 = "42000005010102030405060708"
    rows = [("e", 2, "0100" + "010009ef0000000120c00107" + au1, ""),
            ("e", 2, "0100" + "010009ef0001000120c00107" + au1, "Reference 2.2"), ("e", 2, "0100" + "010009ef0000000220c00107" + au1, "Reference 2.2"),
            ("e", 2, "0100" + "010009ef0000000120c00107", "Short 5.2"), ("e", 2, "0100" + "010009ef0000000120c0010743" + au1[2:], "direction flag 4.2"),
            ("e", 2, "0100" + "010009ef0000000120c00107" + au1[:8] + "02" + au1[10:], "safety feature 3.6"),
            ("e", 2, "0100" + "010004f000018006", "Unexpected 2.2"), ("r", 2, "0300" + "01000680000100018a", "Short 2.1"),
            ("r", 2, "0300" + "01000680000100018a110307", ""), ("r", 2, "0300" + "01000680000100018a100307", "no DI of the sender in DR 2.1"),
            ("r", 2, "0300" + "01000680000100018a13" + "00" * 8, "no DI of the sender in DR 2.1"),
            ("r", 3, "0320" + "010009df0001000120c00108" + "25" + "00" * 20, "Size 2.2"),
            ("r", 3, "0320" + "010009df0000000120c00107" + "25" + "00" * 20, "Reference 2.2"),
            ("e", 4, "0122" + "010004f0000100" + "06" * 123, ""), ("e", 4, "0122" + "010004f0000100" + "06" * 124, "Segment 2.2"),
            ("e", 4, "0122" + "010004f0000080" + "06" + "00" * 8, "Reference 2.2"), ("r", 4, "0322" + "0100056f0001000100", "Length 2.2"),
            ("r", 2, "0397", "stray address None"), ("r", 2, "0197aabbcc", ""), ("r", 2, "018700", ""), ("r", 2, "0173aa", "information 1.3"),
            ("e", 2, "0173", "stray address None"), ("e", 2, "0373", ""), ("r", 2, "0101", ""), ("r", 2, "0301", ""), ("r", 2, "030100", "information 1.3")]
    opened = [("e", SABM), ("r", UA), ("e", CR), ("r", CC)]
    for side, count, content, wanted in rows:
        talk = conversation.Conversation()
        seen_of(talk, opened[:count])
        seen = talk.feed(side, framing.spelled(bytes.fromhex(content)))[0]
        got = f"{seen.fault.name} {seen.fault.reason}" if seen.fault else ""
        judge.same(f"the frame {content[:60]} of {side} behind {count}", got, wanted)


def run(judge):
    for part in (drills, traces, taps, bad_lines, conversations, faults_behind_a_set_up):
        part(judge)
