"""Captures of real lines: captures.py PROGRAM, for captures.sh beside it."""
import os
import random
import re
import shutil
import signal
import subprocess
import sys
import tempfile
import time
from dataclasses import replace
from importlib import machinery, util

sys.dont_write_bytecode = True
TOP = os.path.dirname(os.path.dirname(os.path.abspath(__file__)))
sys.path.insert(0, os.path.join(TOP, "tests", "lab"))

import packets  # noqa: E402
from decoding import captures, controls, framing, sources  # noqa: E402
from judge import Judge  # noqa: E402
from packets import ACK, COOKED, COOKED_2, ETHERNET, FIN, NULL, RAW, SYN, Talk  # noqa: E402
from serving import KEYS, free_port, is_listened_at  # noqa: E402

PORT = 20000
CALLS = 20
MOST_SECONDS = 60
TAP = os.path.join(TOP, "examples/recorded-link.tap")


def tool(name, data, *words):
    """What a tool prints, the lines that it tells, and its status."""
    run = subprocess.run([sys.executable, f"tools/{name}", *words], input=data, capture_output=True, check=False, timeout=MOST_SECONDS)
    return run.stdout, run.stderr.decode().split("\n")[:-1], run.returncode


def streams(tap):
    """What a tap has, however its octets are cut: (the lines that open links, the octets of each side of each link)."""
    reading = sources.read(tap)
    opened = [(link.number, link.engine, link.rbc, link.moment) for link in reading.links]
    return opened, {(link.number, side): b"".join(item.octets for item in link.items if item.side == side) for link in reading.links for side in "er"}


def tapped(capture, *words):
    """The same of a capture, what is told, and the status."""
    tap, told, status = tool("tap", capture, "--tcp", str(PORT), *words)
    return streams(tap), told, status


class Made:
    """Captures made of the recorded link, twice, as two connections one behind the other, and what they must become."""

    def __init__(self, judge):
        self.judge = judge
        with open(TAP, "rb") as file:
            lines = file.read().decode().split("\n")
        self.tap = "\n".join(lines + [re.sub(r"^(link|octets) 1", r"\1 2", line) for line in lines if not line.startswith("tap")])
        self.sents = packets.talks_of(self.tap, PORT, 50)
        opened, self.wanted = streams(self.tap)
        # AU1 is the third piece that the engine sends, behind three packets of the set-up of TCP.
        moments = [sent.moment for sent in self.sents if sent.octets and b"\x42\0\0\5" in sent.octets]
        self.opened = [(number, engine, rbc, moment) for (number, engine, rbc, _), moment in zip(opened, moments)]

    def same(self, name, capture):
        self.judge.same(name, tapped(capture), ((self.opened, self.wanted), [], 0))

    def lacks(self, name, sents, told):
        """A capture that lacks something: all that is there is taken, and these lines are told."""
        found, lines, status = tapped(packets.pcapng(packets.whole(sents)))
        self.judge.same(name, (lines, status), (told, 1))
        return found

    def formats(self):
        """Each link type, both versions of IP, both formats, both orders of octets, and each resolution."""
        for link_type in (ETHERNET, NULL, RAW, COOKED, COOKED_2):
            for version in (4, 6):
                made = packets.whole(self.sents, link_type, version)
                self.same(f"link type {link_type}, IPv{version}", packets.pcapng(made, link_type))
        for tags in (1, 2):
            for link_type in (ETHERNET, COOKED_2):
                self.same(f"{tags} VLAN tags in link type {link_type}", packets.pcap(packets.whole(self.sents, link_type, tags=tags), link_type))
        made = packets.whole(self.sents)
        for order in "<>":
            for ticks in (10 ** 6, 10 ** 9):
                self.same(f"pcap {order} {ticks}", packets.pcap(made, order=order, ticks=ticks))
            for resolution in (None, 3, 6, 9, 0x80 | 20):
                self.same(f"pcapng {order} {resolution}", packets.pcapng(made, order=order, resolution=resolution))

    def lines(self):
        """Retransmissions, overlaps, other orders, numbers that wrap, and all of them."""
        draw = random.Random(1)
        alike = [("plain", self.sents), ("each segment twice", [sent for sent in self.sents for _ in range(2)]),
                 ("overlaps", overlapped(draw, self.sents)), ("another order", reordered(draw, self.sents)),
                 ("probes", probed(self.sents))]
        for name, sents in alike:
            self.same(name, packets.pcapng(packets.whole(sents)))
            for side in "er":
                wrapped = packets.shifted(sents, side, 2 ** 32 - {"e": 1000, "r": 77000}[side] - 150)
                self.same(f"{name}, numbers of {side} that wrap", packets.pcapng(packets.whole(wrapped)))
        for seed in range(20):
            draw = random.Random(seed)
            mixed = reordered(draw, overlapped(draw, self.sents))
            self.same(f"mixed by seed {seed}", packets.pcapng(packets.whole(packets.shifted(mixed, "e", 2 ** 32 - 1200))))
        one_pair = [replace(sent, ports=(40000, PORT)) for sent in self.sents]
        half = len(one_pair) // 2
        self.same("the same ports again", packets.pcapng(packets.whole(packets.shifted(one_pair[:half], "e", 500) + one_pair[half:])))
        other_ports = [replace(sent, ports=(sent.ports[0] + 9, PORT + 1)) for sent in self.sents]
        self.same("connections of another port between", packets.pcapng(packets.whole([it for pair in zip(self.sents, other_ports) for it in pair])))

    def first_part_of_au1_late(self):
        """AU1 came with the packet that has its first part, where that comes behind the second."""
        pieces = [(side, part) for side, octets in packets.pieces_of(sources.read(self.tap).links[0]) for part in (octets[:9], octets[9:]) if part]
        sents = Talk((40000, PORT), {"e": 1, "r": 1}).open().say(pieces).sent
        at = next(number for number, sent in enumerate(sents) if len(sent.octets) == 9 and sents[number + 1].side == sent.side == "e")
        late = sents[:at] + [sents[at + 1], replace(sents[at], moment=sents[at + 1].moment + 1)] + sents[at + 2:]
        found = [tapped(packets.pcapng(packets.whole(it)))[0][0][0][3] for it in (sents, late)]
        self.judge.same("the moment of AU1 in two parts", found, [sents[at + 1].moment, sents[at + 1].moment + 1])

    def first(self):
        """The segments of the first connection, and what each side sent."""
        one = [sent for sent in self.sents if sent.ports[0] == 40000]
        return one, {key: octets for key, octets in self.wanted.items() if key[0] == 1}

    def missing(self):
        """What a capture lacks is told, a line each, and the rest is taken."""
        one, wanted = self.first()
        none = ["packet 1: the first of link 1, whose SYN isn't in the capture: what was sent before it is missing"]
        for name, begin, told in (("no SYN", 1, []), ("no SYN, nor its answer", 2, none)):
            found, lines, status = tapped(packets.pcapng(packets.whole(one[begin:])))
            self.judge.same(name, (found[1], lines, status), (wanted, told, 1 if told else 0))
        at = next(number for number, sent in enumerate(one) if number > 20 and sent.side == "r" and sent.octets)
        gone, behind = len(one[at].octets), next(number for number in range(at + 1, len(one)) if one[number].side == "r" and one[number].octets)
        found = self.lacks("a lost piece", one[:at] + one[at + 1:], [f"packet {behind}: {gone} octets of link 1 r before it aren't in the capture"])
        before = sum(len(sent.octets) for sent in one[:at] if sent.side == "r")
        whole = wanted[1, "r"]
        self.judge.same("what is around it", found[1], {(1, "e"): wanted[1, "e"], (1, "r"): whole[:before] + whole[before + gone:]})
        last = max(number for number, sent in enumerate(one) if sent.side == "e" and sent.octets)
        gone = f"at least {len(one[last].octets)} octets of link 1 e behind all others aren't in the capture"
        self.lacks("a lost end", one[:last] + one[last + 1:], [f"packet {len(one) - 1}: {gone}"])
        self.lacks("a lost end, and no FIN", [sent for number, sent in enumerate(one) if number != last and not (sent.flags & FIN and sent.side == "e")],
                   [f"packet {len(one) - 2}: {gone}"])

    def cut(self):
        """Packets that are cut, alone and where they come again whole, and octets that come again with other values."""
        one, wanted = self.first()
        made = packets.whole(one)
        _, lines, status = tapped(packets.pcapng([(moment, octets[:80], length) for moment, octets, length in made]))
        count = sum(length > 80 for _, _, length in made)
        self.judge.same("cut packets", (sum(": cut, 80 of its" in line for line in lines), status), (count, 1))
        mended = [it for sent in made for it in ((sent[0], sent[1][:70], sent[2]), sent)]
        found, lines, status = tapped(packets.pcapng(mended))
        self.judge.same("cut packets that came again whole", (found[1], all(": cut, 70" in line for line in lines), status), (wanted, True, 1))
        altered = [it for sent in one for it in ([sent, replace(sent, octets=sent.octets[:-1] + b"\0")] if sent.octets else [sent])]
        found, lines, status = tapped(packets.pcapng(packets.whole(altered)))
        told = {f"packet N: octets of link 1 {side} that came before, with other values; those that came first are kept" for side in "er"}
        self.judge.same("octets that come again with other values", (found[1], len(lines), {re.sub(r"\d+", "N", line, count=1) for line in lines}),
                        (wanted, len(altered) - len(one), told))

    def others(self):
        """What is no link: a port where nothing was sent, a capture of frames, a text; and links above 64."""
        judge = self.judge
        nothing = Talk((50000, PORT), {"e": 1, "r": 1}).open().close().sent
        judge.same("connections on which nothing is sent", tapped(packets.pcapng(packets.whole(nothing))), (([], {}), ["no link or connection"], 1))
        judge.same("a text", tool("tap", self.tap.encode(), "--tcp", "20000"), (
            b"tap 1\n", ["no capture of the formats pcapng and pcap", "no link or connection"], 1))
        judge.same("no port", [tool("tap", b"", "--tcp", word)[2] for word in ("0", "65536", "x", "")], [2] * 4)
        capture = packets.pcapng(packets.whole(self.sents))
        judge.same("without --tcp", tool("tap", capture), (
            b"tap 1\n", ["interface 1 has no frames of a link; --tcp PORT takes those of TCP", "no link or connection"], 1))
        told = tool("chart", capture, "--html")[1]
        judge.same("a chart of it", told, ["line 1: a capture; a text is wanted, and tools/tap makes a tap of it"])
        fragment = bytearray(packets.framed(self.sents[3]))
        fragment[14 + 6] = 0x20
        judge.same("a fragment", tapped(packets.pcapng([(0, bytes(fragment), len(fragment))]))[1], [
            "packet 1: a fragment of an IPv4 packet; it is left out", "no link or connection"])
        many = [sent for number in range(66) for sent in Talk((30000 + number, PORT), {"e": 9, "r": 9}).open().say([("e", bytes([number]))]).sent]
        capture = packets.pcapng(packets.whole(many))
        found, told, _ = tapped(capture, "--engine", "5", "--rbc", "9")
        judge.same("links above 64", (len(found[0]), told), (64, [f"link {number} is left out: a tap has links 1 to 64" for number in (65, 66)]))
        found = tapped(packets.pcapng(packets.whole(self.sents)), "--engine", "6", "1")[0]
        judge.same("an engine that is named", [link[:3] for link in found[0]], [(1, 6, 9)])
        judge.same("one of them alone", tapped(capture, "--engine", "5", "--rbc", "9", "66")[0], (
            [(1, 5, 9, packets.BEGIN + 3)], {(1, "e"): b"\x41", (1, "r"): b""}))

    def frames(self):
        """tools/pcap --tcp makes the capture of frames that it makes of the tap, but for moments; and its tap is the same."""
        capture = packets.pcapng(packets.whole(self.sents))
        made, told, status = tool("pcap", capture, "--tcp", str(PORT))
        judge = self.judge
        judge.same("frames of a capture", (told, status), ([], 0))
        judge.same("their tap", (streams(tool("tap", made)[0])), (self.opened, self.wanted))
        of_tap = tool("pcap", self.tap.encode())[0]
        judge.same("as of the tap", [octets for octets in frames_of(made)], [octets for octets in frames_of(of_tap)])
        judge.same("link 2 alone", len(frames_of(tool("pcap", capture, "--tcp", str(PORT), "2")[0])) * 2, len(frames_of(made)))


def frames_of(capture):
    """(interface's name, direction, octets) of each frame of a capture."""
    return [(interface.name, packet.direction, packet.octets) for interface, packet in captures.in_order(captures.read(capture)[0])]


def probed(sents):
    """Segments, and before each with octets a probe that has the octet before it, as hosts send to see whether the other one is there; before the first
    octet of a side the probe's octet is none of the stream."""
    made, last = [], {}
    for sent in sents:
        if sent.octets:
            made.append(replace(sent, sequence=(sent.sequence - 1) % 2 ** 32, octets=last.get((sent.ports, sent.side), b"\0")))
            last[sent.ports, sent.side] = sent.octets[-1:]
        made.append(sent)
    return made


def overlapped(draw, sents):
    """Segments cut anew, each beginning before the end of the one before it; SYN and FIN stay."""
    made, before = [], {}
    for sent in sents:
        held = before.get((sent.ports, sent.side), b"")
        count = draw.randrange(len(held) + 1) if sent.octets else 0
        octets = held[len(held) - count:] + sent.octets
        made.append(replace(sent, sequence=(sent.sequence - count) % 2 ** 32, octets=octets))
        before[sent.ports, sent.side] = octets if sent.octets else held
        if sent.octets and draw.random() < 0.3:
            made.append(replace(sent, octets=sent.octets[:draw.randrange(len(sent.octets)) + 1]))
    return made


def reordered(draw, sents):
    """The same segments where some come behind the next ones of their side, moments in the new order; a SYN stays first, and AU1 where it is."""
    made = list(sents)
    for number in range(len(made) - 3):
        pair = made[number], made[number + 1 + draw.randrange(2)]
        if draw.random() < 0.4 and not any(sent.flags & (SYN | FIN) or sent.moment % 10000 <= 6 for sent in pair) and pair[0].ports == pair[1].ports:
            at = made.index(pair[1], number)
            made[number], made[at] = pair[1], pair[0]
    return made


def fuzzed(judge, count):
    """Altered captures: tap and pcap end soon, with status 0 or 1, without a traceback, and what they print is whole."""
    loader = machinery.SourceFileLoader("fuzz_tools", os.path.join(TOP, "tests/fuzz-tools.py"))
    fuzz = util.module_from_spec(util.spec_from_loader(loader.name, loader))
    sys.modules[loader.name] = fuzz
    loader.exec_module(fuzz)
    made = Made(judge).sents[:40]
    plain = [packets.pcapng(packets.whole(made)), packets.pcap(packets.whole(made, COOKED_2, 6), COOKED_2, ">", 10 ** 9),
             packets.pcapng(packets.whole(packets.shifted(made, "e", 2 ** 32 - 1100), NULL), NULL, ">", 9), packets.pcap(packets.whole(made, ETHERNET, tags=1))]
    draw, faults = random.Random(7), []
    with tempfile.TemporaryDirectory(prefix="captures-") as work:
        for number in range(count):
            data = fuzz.mutant(draw, draw.choice(plain), draw.choice(plain))
            for name in ("tap", "pcap"):
                run = fuzz.Run(work, name, ["--tcp", str(PORT)], data)
                fault = fuzz.faults_of(run, name)
                faults += [(number, name, fault, run.told[-300:])] if fault else []
    judge.none(f"{count} altered captures", faults)


def bits_of(frames):
    """A synchronous line of these frames, each without flags and escapes: flags, zero insertion, the lowest bit of each octet first."""
    line = [0, 1, 1, 1, 1, 1, 1, 0]
    for content in frames:
        ones = 0
        for bit in (octet >> place & 1 for octet in content for place in range(8)):
            line.append(bit)
            ones = ones + 1 if bit else 0
            if ones == 5:
                line.append(0)
                ones = 0
        line += [0, 1, 1, 1, 1, 1, 1, 0]
    line += [1] * (-len(line) % 8)
    return bytes(sum(bit << place for place, bit in enumerate(line[at:at + 8])) for at in range(0, len(line), 8))


def of_bits(judge, program, work):
    """What `bits` prints of both directions becomes the tap whose octets they are; what isn't whole is told."""
    with open(TAP, "rb") as file:
        tap = file.read()
    (opened, wanted), names = streams(tap), []
    for side in "er":
        path = os.path.join(work, f"{side}.bits")
        with open(path, "wb") as file:
            file.write(bits_of([frame.content for frame in framing.frames_of(wanted[1, side])]))
        names.append(f"{path}.printed")
        with open(names[-1], "wb") as file:
            subprocess.run([program, "bits", path], stdout=file, check=True, timeout=MOST_SECONDS)
    made, told, status = tool("tap", b"", "--bits", *names)
    spelled = {key: b"".join(framing.spelled(frame.without_check) for frame in framing.frames_of(octets)) for key, octets in wanted.items()}
    judge.same("bits of both directions", (streams(made), told, status), ((opened, spelled), [], 0))
    judge.same("their order", faults_of_order(made), [])
    judge.same("their audit", audited(program, made, work), audited(program, tap, work))
    with open(names[0], "rb") as file:
        printed = file.read()
    cut = names[0] + ".cut"
    for name, text, why in (("cut", printed[:-20], "no closing line, so it is cut"),
                            ("without a frame", printed.replace(b"frame 01 3f\n", b""), "frames, where")):
        with open(cut, "wb") as file:
            file.write(text)
        _, told, status = tool("tap", b"", "--bits", cut, names[1])
        judge.same(f"what was printed, {name}", (status, any(why in line for line in told)), (1, True))
    judge.same("words of --bits", [tool("tap", b"", "--bits", *names, *words)[2] for words in (["x"], ["--tcp", "1"])], [2, 2])


def faults_of_order(tap):
    """The frames of a link whose N(R) counts frames that didn't come yet, and those before the UA."""
    sent, found, is_set_up = {"e": 0, "r": 0}, [], False
    heard = dict(sent)
    for item in sources.read(tap).links[0].items:
        control, other = controls.read_control(framing.frames_of(item.octets)[0].body), packets.OTHER[item.side]
        is_set_up = is_set_up or control.name == "UA"
        if control.receive is not None:
            heard[item.side] += (control.receive - heard[item.side]) % 8
            found += [str(control)] if heard[item.side] > sent[other] or not is_set_up else []
        sent[item.side] += control.name == "I" and control.send == sent[item.side] % 8
    return found


def audited(program, tap, work):
    """The lines of an audit."""
    path = os.path.join(work, "audited")
    with open(path, "wb") as file:
        file.write(tap)
    return subprocess.run([program, "audit", "examples/recorded-session.keys", path], capture_output=True, check=True, timeout=MOST_SECONDS).stdout


def settled(path):
    """Waits until a file doesn't grow for a second, twenty seconds at most."""
    size = -1
    for _ in range(20):
        time.sleep(1)
        if size == (size := os.path.getsize(path)):
            return


class Capturing:
    """tshark on the loopback interface, for a port; `began` says whether it captures."""

    def __init__(self, port, work):
        self.path, told = os.path.join(work, "line.pcapng"), os.path.join(work, "told")
        with open(told, "wb") as file:
            self.child = subprocess.Popen(["tshark", "-i", "lo", "-f", f"tcp port {port}", "-q", "-w", self.path], stdout=subprocess.DEVNULL, stderr=file,
                                          env=dict(os.environ, HOME=work))
        self.began = False
        for _ in range(100):
            time.sleep(0.1)
            if self.child.poll() is not None or os.path.exists(self.path) and os.path.getsize(self.path):
                break
        if self.child.poll() is None and os.path.exists(self.path):
            time.sleep(1)
            self.began = self.child.poll() is None

    def end(self):
        settled(self.path)
        self.child.send_signal(signal.SIGINT)
        self.child.wait(timeout=MOST_SECONDS)
        with open(self.path, "rb") as file:
            return file.read()


def calls(judge, program, work):
    """Twenty calls at once against one server, captured as they run."""
    keys, port, recording = os.path.join(work, "keys"), free_port(), os.path.join(work, "recording")
    with open(keys, "w") as file:
        file.write(KEYS)
    if shutil.which("tshark") is None:
        print("skipped: tshark isn't installed, so no line is captured")
        return
    capturing = Capturing(port, work)
    if not capturing.began:
        print("skipped: tshark may not capture here, so no line is captured")
        return
    with open(recording, "wb") as out:
        server = subprocess.Popen([program, "serve", keys, f"127.0.0.1:{port}", "9", "1000000"], stdout=out, stderr=subprocess.DEVNULL)
        judge.same("the server listens", is_listened_at(port), True)
        trains = [subprocess.Popen([program, "call", keys, f"127.0.0.1:{port}", "5", "9", "100000"], stdout=subprocess.DEVNULL, stderr=subprocess.DEVNULL)
                  for _ in range(CALLS)]
        judge.same("the calls", [train.wait(timeout=MOST_SECONDS) for train in trains], [0] * CALLS)
        capture = capturing.end()
        server.terminate()
        server.wait(timeout=MOST_SECONDS)
    tap, told, status = tool("tap", capture, "--tcp", str(port))
    judge.same("the tap of the capture", (told, status), ([], 0))
    path = os.path.join(work, "line.tap")
    with open(path, "wb") as file:
        file.write(tap)
    lines = subprocess.run([program, "audit", keys, path], capture_output=True, check=True, timeout=MOST_SECONDS).stdout.decode().split("\n")[:-1]
    judge.same("links", len(streams(tap)[0]), CALLS)
    judge.none("items that aren't good", [line for line in lines if " good" not in line])
    kinds = sorted(" ".join(line.split()[:3]) for line in lines if line.split()[2] != "di")
    judge.same("their items", kinds, sorted(f"{number} {side} {kind}" for number in range(1, CALLS + 1) for side, kind in (
        ("e", "au1"), ("e", "au3"), *[("e", "dt")] * 3, ("r", "au2"), ("r", "ar"), *[("r", "dt")] * 3)))
    with open(recording, "rb") as file:
        recorded = tool("tap", file.read())[0]
    (opened, found), (served, told) = streams(tap), streams(recorded)
    pairs = [sorted((octets[number, "e"], octets[number, "r"]) for number, *_ in links) for links, octets in ((opened, found), (served, told))]
    judge.same("the octets that the server recorded", pairs[0] == pairs[1], True)
    moments = [sorted(link[3] for link in links) for links in (opened, served)]
    judge.none("moments that are more than two seconds from the server's", [pair for pair in zip(*moments) if abs(pair[0] - pair[1]) > 2000])


def main():
    program = os.path.abspath(sys.argv[1])
    os.chdir(TOP)
    judge = Judge()
    made = Made(judge)
    for part in (made.formats, made.lines, made.first_part_of_au1_late, made.missing, made.cut, made.others, made.frames):
        part()
    fuzzed(judge, 200)
    with tempfile.TemporaryDirectory() as work:
        judge.same(f"{program} is built", os.access(program, os.X_OK), True)
        if os.access(program, os.X_OK):
            of_bits(judge, program, work)
            calls(judge, program, work)
    return judge.close()


if __name__ == "__main__":
    sys.exit(main())
