"""tools/pcap: its captures are read back, block by block and octet by octet, by a reader of pcapng that is written here."""
import os
import random
import re
import shutil
import struct
import subprocess
import sys
import tempfile
import zlib

from decoding import framing, sources
from drills import Drill, printed_by

KMAC = "0123456789abcdef23456789abcdef01456789abcdef0123"
SABM, UA = "7e013febdf7e", "7e017383577e"


class Capture:
    """A capture that was read: its interfaces (link type, name, description) and packets (interface, moment, octets, length, flags, comment)."""

    def __init__(self, octets):
        self.interfaces, self.packets = [], []
        place = 0
        for kind, body in blocks(octets):
            if place == 0 and (kind, body[:16]) != (0x0A0D0D0A, struct.pack("<IHHq", 0x1A2B3C4D, 1, 0, -1)):
                raise ValueError("no section header")
            if kind == 1:
                link_type, reserved, longest = struct.unpack_from("<HHI", body)
                found = options(body[8:])
                if (reserved, longest, found.pop(9)) != (0, 0, b"\3"):
                    raise ValueError("an interface with other fields")
                self.interfaces.append((link_type, found.pop(2).decode(), found.pop(3, b"").decode()))
            elif kind == 6:
                self._packet(body)
            elif place:
                raise ValueError(f"a block of kind {kind}")
            place += 1

    def _packet(self, body):
        interface, high, low, kept, length = struct.unpack_from("<IIIII", body)
        end = 20 + kept + -kept % 4
        if any(body[20 + kept:end]):
            raise ValueError("octets that fill up aren't zero")
        found = options(body[end:])
        flags = struct.unpack("<I", found.pop(2))[0]
        if found.pop(3) != struct.pack(">BI", 2, zlib.crc32(body[20:20 + kept])):
            raise ValueError("a packet with another CRC-32")
        self.packets.append((interface, high << 32 | low, body[20:20 + kept], length, flags, found.pop(1, b"").decode()))
        if found or interface >= len(self.interfaces):
            raise ValueError("a packet with other options, or of no interface")


def blocks(octets):
    """Kind and body of each block; each tells its length twice, a multiple of four."""
    place = 0
    while place < len(octets):
        kind, length = struct.unpack_from("<II", octets, place)
        if length % 4 or length < 12 or struct.unpack_from("<I", octets, place + length - 4)[0] != length:
            raise ValueError("a block with two lengths")
        yield kind, octets[place + 8:place + length - 4]
        place += length


def options(octets):
    """The options by their codes, up to the end of the list, which ends the block."""
    found, place = {}, 0
    while True:
        code, length = struct.unpack_from("<HH", octets, place)
        if code == 0:
            if length or place + 4 != len(octets):
                raise ValueError("octets behind the options")
            return found
        found[code] = octets[place + 4:place + 4 + length]
        place += 4 + length + -length % 4


def captured(text, *words):
    """The capture of a text, what was told, and the status."""
    data = text if isinstance(text, bytes) else text.encode("latin-1")
    run = subprocess.run([sys.executable, "tools/pcap", *words], input=data, stdout=subprocess.PIPE, stderr=subprocess.PIPE, check=False)
    return Capture(run.stdout), run.stderr.decode().split("\n")[:-1], run.returncode


def set_up(judge):
    text = f"1 e frame {SABM}\n1 r frame {UA}\n2 e frame {SABM}\n1 e frame 7e013feadf7e\n1 r connected 5\n2 r frame 7e017e\n2 r frame 7e0f7d7e\n"
    capture, said, status = captured(text)
    judge.same("what is told", (said, status), ([
        "line 4: a frame that isn't intact: bad check sequence", "line 6: a frame that isn't intact: too short",
        "line 7: a frame that isn't intact: aborted"], 1))
    judge.same("the interfaces", capture.interfaces, [(147, "link 1", "engine 5"), (147, "link 2", "")])
    judge.same("the packets", capture.packets, [
        (0, 0, b"\x01\x3f", 2, 2, ""), (0, 1, b"\x01\x73", 2, 1, ""), (1, 2, b"\x01\x3f", 2, 2, ""),
        (0, 3, b"\x01\x3f\xea\xdf", 4, 2 | 1 << 24, "bad frame: bad check sequence"), (1, 4, b"\x01", 1, 1 | 1 << 26, "bad frame: too short"),
        (1, 5, b"\x0f", 1, 1 | 1 << 31, "bad frame: aborted")])
    capture, said, status = captured(text, "2")
    judge.same("link 2 alone", (capture.interfaces, len(capture.packets), len(said), status), ([(147, "link 2", "")], 3, 2, 1))
    capture, said, status = captured(text, "3")
    judge.same("a link that isn't there", (capture.interfaces, said, status), ([], ["no line of link or connection 3"], 1))
    long = "7e" + "00" * 1000 + "7e" + "01" * 1033 + "7e"
    capture, said, status = captured(f"1 e frame {long}\n")
    judge.same("a frame that is too long", [(len(packet[2]),) + packet[3:] for packet in capture.packets],
               [(1000, 1000, 2 | 1 << 24, "bad frame: bad check sequence"), (1033, 1033, 2 | 1 << 25, "bad frame: too long")])


def recordings(judge):
    moment = 1764331200123
    text = f"trace 1 7 15 128 1000 5 40000\n> {moment} 3 call 5 9 0102030405060708\n< 3 octets {SABM}\n> {moment} 4 answer 9 1122334455667788\n" \
           f"> {moment + 1} 4 octets {SABM[:6]}\n> {moment + 2} 4 octets {SABM[6:]}{SABM[2:]}\n< 4 octets {UA}\n> {10 ** 15} 3 octets {UA}\n"
    capture, said, status = captured(text)
    judge.same("the interfaces of a recording", capture.interfaces, [(147, "connection 3", "engine 5, RBC 9"), (147, "connection 4", "RBC 9")])
    judge.same("its packets", (capture.packets, said, status), ([
        (0, moment, b"\x01\x3f", 2, 2, ""), (1, moment + 2, b"\x01\x3f", 2, 1, ""), (1, moment + 2, b"\x01\x3f", 2, 1, ""),
        (1, moment + 2, b"\x01\x73", 2, 2, ""), (0, 10 ** 15, b"\x01\x73", 2, 1, "")], [], 0))
    capture, _, _ = captured(f"tap 1\nlink 1 5 9 1000\nlink 2 6 9 77\noctets 1 e {SABM}{SABM}\noctets 2 r {UA}\n")
    judge.same("a tap", (capture.interfaces, [(packet[0], packet[1], packet[4]) for packet in capture.packets]),
               ([(147, "link 1", "engine 5, RBC 9, moment 1000"), (147, "link 2", "engine 6, RBC 9, moment 77")], [(0, 1000, 2), (0, 1001, 2), (1, 79, 1)]))
    capture, _, _ = captured("1 e frame 42000005010102030405060708\n1 r frame 100307\n")
    judge.same("level safe", (capture.interfaces, [packet[2].hex() for packet in capture.packets]),
               ([(148, "link 1", "")], ["42000005010102030405060708", "100307"]))
    capture, said, status = captured("1 e frame 42000005010102030405060708\n1 r frame ff\n")
    judge.same("no SaPDU", ([packet[5] for packet in capture.packets], said, status),
               (["", "no SaPDU: Kind header ff"], ["line 2: no SaPDU: Kind header ff"], 1))


def bad_input(judge):
    text = f"1 e frame {SABM}\nno text\n1 e frame 7e013febd\n1 r frame {UA}\n1 e fram\n1 e frame ffff\n1 r frame {UA[:-4]}\n1 r frame {UA}"
    capture, said, status = captured(text)
    judge.same("bad lines are told, and the rest is written", (said, status, [packet[2].hex() for packet in capture.packets]), ([
        "line 2: no decimal: no", "line 3: an odd number of digits: 7e013febd", "line 5: no word that a drill prints: fram",
        "line 6: a frame that isn't closed, left out", "line 7: a frame that isn't intact: too short"], 1, ["013f", "0173", "017383", "0173"]))
    capture, said, status = captured(f"1 e frame ffff{SABM}\n")
    judge.same("octets before the first flag", (said, status, len(capture.packets)), (["line 1: 2 octets before the first flag, left out"], 1, 1))
    capture, said, status = captured(b"\0\1\2\n\xff")
    judge.same("no text", (said, status, capture.interfaces), (
        ["line 1: no line of a drill's text, a trace, a tap or what a relay prints: \\x00\\x01\\x02; nothing behind it is read"], 1, []))
    judge.same("nothing", captured("")[1:], (["line 1: no line"], 1))


def same_octets(judge, name, text):
    """The packets of each direction of each link, spelled as frames again, are the octets of the text."""
    capture, said, status = captured(text)
    wanted, got = {}, {}
    for link in sources.read(text).links:
        for item in link.items:
            if item.kind == sources.OCTETS and item.octets:
                own = item.side == "e" if item.own is None else item.own
                wanted.setdefault((link.name, 2 if own else 1), bytearray()).extend(item.octets)
    for interface, _, octets, length, flags, comment in capture.packets:
        key = capture.interfaces[interface][1], flags
        got.setdefault(key, bytearray()).extend(octets if capture.interfaces[interface][0] == 148 else framing.spelled(octets))
        if comment or length != len(octets):
            said.append(comment)
    judge.same(f"the octets of {name}", (got == wanted, said, status), (True, [], 0))
    return len(capture.packets)


def tap_of(text):
    """What a drill printed, as a tap."""
    lines, seen = ["tap 1"], set()
    for words in (line.split(" ") for line in text.split("\n")):
        if len(words) > 3 and words[2] == "frame":
            if words[0] not in seen:
                lines.append(f"link {words[0]} 5 9 0")
            seen.add(words[0])
            lines.append(f"octets {words[0]} {words[1]} {words[3]}")
    return "\n".join(lines)


def examples(judge, program):
    """The worked drills, the recorded session, and a tap of each drill."""
    count = 0
    for name in sorted(os.listdir("examples")):
        path = os.path.join("examples", name)
        if name.endswith(".drill"):
            with open(path, encoding="latin-1") as file:
                drill = Drill(file.read())
            lines, _ = printed_by(program, drill.text([words for _, words in drill.steps]))
            text = "\n".join(" ".join(words) for words in lines)
            count += same_octets(judge, name, text)
            if drill.level != "safe":
                count += same_octets(judge, f"{name} as a tap", tap_of(text))
        elif name.endswith(".trace"):
            with open(path, encoding="latin-1") as file:
                count += same_octets(judge, name, file.read())
    print(f"captures: {count} frames of the examples")


def noise(judge):
    """A recording whose octets are noise with frames in it, cut at any place: the packets are the frames of the whole stream."""
    draw = random.Random(5)
    stream = b"".join(draw.choice((bytes(draw.randrange(256) for _ in range(draw.randrange(9))), bytes.fromhex(SABM), bytes.fromhex("7e7d7e"),
                                   framing.spelled(bytes(draw.randrange(256) for _ in range(30))))) for _ in range(400))
    lines, place = ["trace 1 7 15 128 1000 5 40000", "> 0 1 answer 9 0000000000000001"], 0
    while place < len(stream):
        size = draw.randrange(1, 40)
        lines.append(f"> {place} 1 octets {stream[place:place + size].hex()}")
        place += size
    capture, _, _ = captured("\n".join(lines))
    wanted = [frame.without_check if frame.intact else frame.content for frame in framing.frames_of(stream)]
    judge.same("noise in pieces", ([packet[2] for packet in capture.packets], len(wanted) > 300), (wanted, True))
    judge.same("its bad frames", [re.sub("bad frame: ", "", packet[5]) or "intact" for packet in capture.packets],
               [frame.verdict for frame in framing.frames_of(stream)])


def analyser(judge):
    """Where tshark is installed, it reads names, directions and marks, and the frames as LAPB."""
    if shutil.which("tshark") is None:
        return
    text = f"1 e frame {SABM}\n2 r frame {UA}\n1 e frame 7e013feadf7e\n1 e frame 7e0100010009ef0000000120c0010742000005010102030405060708f7007e\n"
    with tempfile.TemporaryDirectory() as work:
        path = os.path.join(work, "capture")
        with open(path, "wb") as out:
            subprocess.run([sys.executable, "tools/pcap"], input=text.encode(), stdout=out, stderr=subprocess.DEVNULL, check=False)
        read = ["tshark", "-o", 'uat:user_dlts:"User 0 (DLT=147)","lapb","0","","0",""', "--disable-protocol", "x.25", "-r", path]
        fields = ["frame.interface_name", "frame.packet_flags_direction", "frame.packet_flags_crc_error", "frame.comment", "frame.time_epoch"]
        words = read + ["-T", "fields", "-E", "separator=|"] + [word for name in fields for word in ("-e", name)]
        got = subprocess.run(words, stdout=subprocess.PIPE, stderr=subprocess.DEVNULL, check=False).stdout.decode().split("\n")
        shown = subprocess.run(read + ["-V"], stdout=subprocess.PIPE, stderr=subprocess.DEVNULL, check=False).stdout.decode()
    tidy = [re.sub("0x0+|True", lambda found: {"True": "1"}.get(found[0], ""), line).rstrip("0") for line in got if line]
    judge.same("what tshark reads of the packets", [line.split("|")[:4] for line in tidy], [
        ["link 1", "2", "0", ""], ["link 2", "1", "0", ""], ["link 1", "2", "1", "bad frame: bad check sequence"], ["link 1", "2", "0", ""]])
    names = [name for name in re.findall(r"^ *Control field: (I|U [PF], func=[A-Z]+)", shown, re.M)]
    judge.same("what tshark reads as LAPB", names, ["U P, func=SABM", "U F, func=UA", "U P, func=SABM", "I"])


def run(judge, program):
    for part in (set_up, recordings, bad_input, noise, analyser):
        part(judge)
    examples(judge, program)
