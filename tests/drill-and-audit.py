#!/usr/bin/env python3
"""Audits what was passed in drills, and holds the verdicts against what each end sent.

Usage: drill-and-audit.py PROGRAM. Of drills on a line that keeps order, tools/tap makes the taps, and every SaPDU must be good and each text of a DT
one that the other end accepted. Of hostile drills, those of level full in tests/rows and FORGED that are made here by seeds, the tap is what each
end was given, frame by frame. Which SaPDUs are in it is read here by the laboratory's decoder, not by the program. One that its end never sent on
a link of that session was altered or is foreign, and must have another verdict than good. AU1 and DI bear no MAC, so an altered one may be good: they
are counted, and nothing is held against them. Each text that an end accepted must be that of a good DT, in their order. Closes with 'N passed, M failed'.
"""
import glob
import os
import random
import subprocess
import sys
import tempfile

sys.dont_write_bytecode = True
TOP = os.path.dirname(os.path.dirname(os.path.abspath(__file__)))
sys.path[:0] = [os.path.join(TOP, "tools"), os.path.join(TOP, "tests", "lab")]

import drills  # noqa: E402
from decoding import controls, framing, network, safety, transport  # noqa: E402
from decoding.faults import Fault  # noqa: E402
from judge import Judge  # noqa: E402

FORGED = 40
TRIES = 10
OTHER = {"e": "r", "r": "e"}
KEY = "0123456789abcdef23456789abcdef01456789abcdef0123"
GOOD = ["tests/rows/whole-set-up/scenario", "tests/rows/one-segment-message/scenario", "tests/rows/two-segment-message/scenario",
        "examples/whole-session.drill"]
WITHOUT_MAC = ("AU1", "DI")


# ---- what is heard of a stream, by the decoder

def payloads(side, stream):
    """The information of the I frames that count, from the frame that opens the link up to one that ends it."""
    opened, count, own, peer = False, 0, controls.ADDRESSES[side], controls.ADDRESSES[OTHER[side]]
    for frame in framing.frames_of(stream):
        control = controls.read_control(frame.body) if frame.intact else None
        if control is None:
            continue
        if not opened:
            opened = frame.address == controls.CALLED and (control.name == "UA" if side == "r" else control.name == "SABM" and len(frame.body) == 1)
        elif control.name == "DISC" and frame.address == peer or control.name in ("DM", "FRMR") and frame.address == own:
            return
        elif control.name == "I" and frame.address == peer and control.send == count % 8:
            count += 1
            yield frame.body[1:]


def heard(side, stream):
    """The texts of the sender's safety layer, as octets."""
    blocks, messages = network.Joiner(), transport.MessageJoiner()
    for payload in payloads(side, stream):
        try:
            octets = blocks.add(payload)
            tpdu = None if octets is None else transport.read_tpdu(octets)
            if tpdu is None or tpdu.kind == "AK":
                continue
            if tpdu.kind in ("DC", "ER"):
                return
            text = messages.add(tpdu) if tpdu.kind == "DT" else tpdu.user
        except Fault:
            return
        if text is not None:
            yield bytes(text)
        if tpdu.kind == "DR":
            return


def kind_of(text):
    try:
        return safety.read_sapdu(text).kind
    except Fault:
        return "-"


# ---- audits

def audited(judge, what, program, keys, tap):
    """The lines of an audit by link and side, and its status. How far the streams were heard is told on the standard error, in the lines that `ends` prints."""
    with tempfile.TemporaryDirectory() as work:
        for name, text in ("keys", keys), ("tap", tap):
            with open(os.path.join(work, name), "w", encoding="latin-1") as out:
                out.write(text)
        run, ends = (
            subprocess.run([program, "audit", "keys", "tap", *more], cwd=work, stdout=subprocess.PIPE, stderr=subprocess.PIPE, check=False, timeout=120)
            for more in ([], ["ends"])
        )
    printed = ends.stdout.splitlines()
    of_ends = [line for line in printed if line.split(b" ")[2] == b"end"]
    judge.same(f"{what}: what is told of ends", (run.stderr.splitlines(), ends.stderr), (of_ends, b""))
    judge.same(f"{what}: what is printed beside ends", run.stdout.splitlines(), [line for line in printed if line not in of_ends])
    lines = {}
    for line in run.stdout.decode("latin-1").splitlines():
        words = line.split(" ")
        lines.setdefault((words[0], words[1]), []).append(words[2:])
    return lines, run.returncode


def key_file(links):
    """The key of each pair: the first that an end of it has."""
    kept = {}
    for engine, rbc, ke, kr in (words[2:6] for words in links):
        for key in ke, kr:
            if key != "-":
                kept.setdefault((engine, rbc), key)
    return "version = 1\n" + "".join(f'[[key]]\nengine = {engine}\nrbc = {rbc}\nkmac = "{key}"\n' for (engine, rbc), key in kept.items())


def links_of(drill):
    return [words for _, words in drill.steps if words[0] == "link"]


# ---- drills on a line that keeps order

def good(judge, program, path):
    drill = drills.Drill(open(path, encoding="latin-1").read())
    text = drill.text([words for _, words in drill.steps])
    printed, status = drills.printed_by(program, text)
    judge.same(f"{path} as a drill", status, 0)
    made = subprocess.run([sys.executable, "tools/tap"], input="".join(" ".join(words) + "\n" for words in printed).encode("latin-1"),
                          stdout=subprocess.PIPE, check=False)
    judge.same(f"{path} as a tap", made.returncode, 0)
    lines, status = audited(judge, f"{path} as an audit", program, key_file(links_of(drill)), made.stdout.decode("latin-1"))
    judge.same(f"{path} as an audit", status, 0)
    for words in links_of(drill):
        for side in "er":
            told = lines.get((words[1], side), [])
            judge.same(f"{path}, link {words[1]} {side}: something is heard", bool(told), True)
            for place, line in enumerate(told):
                judge.same(f"{path}, link {words[1]} {side}, SaPDU {place}", line[1], "good")
            judge.same(f"{path}, link {words[1]} {side}: what was accepted", accepted(printed, words[1], OTHER[side]), good_texts(told))


def accepted(printed, link, side):
    return [words[3] for words in printed if words[:3] == [link, side, "accepted"]]


def good_texts(lines):
    return [line[2] for line in lines if line[:2] == ["dt", "good"]]


# ---- hostile drills

class Passed:
    """What came of a drill of single passes: the octets that each end was given and sent, what waits, and what was printed."""

    def __init__(self, program, drill):
        self.lines, self.given, self.sent, self.printed = drills.Lines(), {}, {}, []
        self.pieces = []
        for words, printed in drills.outcomes_of(program, drill):
            self.printed += printed
            if words[0] in ("pass", "drain"):
                taken = self.lines.take_for(words)
                if taken:
                    self.given.setdefault((words[1], taken[0]), []).append(taken[1])
                    self.pieces.append((words[1], taken[0], taken[1]))
            elif words[0] in ("put", "copy", "lose", "repeat", "alter"):
                self.lines.change(words)
            for line in printed:
                if line[2] == "frame":
                    octets = bytes.fromhex(line[3])
                    self.lines.queue(line[0], line[1]).append(octets)
                    self.sent.setdefault((line[0], line[1]), []).append(octets)

    def tap(self, links):
        lines = ["tap 1"] + [f"link {words[1]} {words[2]} {words[3]} 0" for words in links]
        for link, side, octets in self.pieces:
            lines += [f"octets {link} {side} {octets[start:start + 4096].hex()}" for start in range(0, len(octets), 4096)]
        return "\n".join(lines) + "\n"

    def own(self, links, link, side):
        """The SaPDUs that this side sent on the links of this session: one pair, key and pair of random numbers."""
        session = {tuple(words[2:]) for words in links if words[1] == link}
        return {text for words in links if tuple(words[2:]) in session for text in heard(side, b"".join(self.sent.get((words[1], side), [])))}


def hostile(judge, program, name, drill):
    """Audits a drill; answers how many SaPDUs with and without a MAC were altered or foreign."""
    links, passed = links_of(drill), Passed(program, drill)
    lines, status = audited(judge, name, program, key_file(links), passed.tap(links))
    judge.same(f"{name}: its status", status, 0)
    counts = [0, 0]
    for words in links:
        for side in "er":
            told = lines.get((words[1], side), [])
            texts = list(heard(side, b"".join(passed.given.get((words[1], side), []))))
            kinds = [kind_of(text) for text in texts]
            judge.same(f"{name}, link {words[1]} {side}: what is heard", [line[0] for line in told], [kind.lower() for kind in kinds])
            own = passed.own(links, words[1], side)
            for place, (line, text, kind) in enumerate(zip(told, texts, kinds)):
                if text in own:
                    continue
                counts[kind in WITHOUT_MAC] += 1
                if kind not in WITHOUT_MAC:
                    judge.same(f"{name}, link {words[1]} {side}, SaPDU {place}, {text.hex()[:60]}: is good", line[1] == "good", False)
            took = accepted(passed.printed, words[1], OTHER[side])
            judge.same(f"{name}, link {words[1]} {side}: what was accepted", took, good_texts(told)[:len(took)])
    return counts


# ---- drills by seeds

def numbered(octets):
    """N(S) of a frame; None where it is no I frame."""
    frames = framing.frames_of(octets)
    control = controls.read_control(frames[0].body) if len(frames) == 1 and frames[0].intact else None
    return control.send if control else None


def split(octets):
    """A frame with an I frame's TPDU and text, as (what stands before the text, the text); None where there is none."""
    if numbered(octets) is None:
        return None
    frames = framing.frames_of(octets)
    if frames[0].body[1:3] != b"\x01\x00":
        return None
    try:
        tpdu = transport.read_tpdu(frames[0].body[3:])
    except Fault:
        return None
    return (frames[0].without_check[:-len(tpdu.user)], tpdu.user) if tpdu.user else None


def forged(rng, text, foreign):
    """A text of another link of the same kind, or this one with a bit altered."""
    others = [other for other in foreign if other[0] == text[0] and other != text and len(other) < 120]
    if others and rng.random() < 0.5:
        return rng.choice(others)
    altered = bytearray(text)
    altered[rng.randrange(len(text))] ^= 1 << rng.randrange(8)
    return bytes(altered)


def numbers(rng):
    return f"{rng.getrandbits(64):016x}"


def begun(rng):
    """Two links of one pair and key, of which the second is at rest behind some messages."""
    steps = [["link", "1", "5", "9", KEY, KEY, numbers(rng), numbers(rng)], ["link", "2", "5", "9", KEY, KEY, numbers(rng), numbers(rng)], ["drain", "2", "20"]]
    for _ in range(3):
        steps += [["send", "2", side, rng.randbytes(rng.randint(1, 60)).hex()] for side in "er"] + [["drain", "2", "40"], ["take", "2", "e"], ["take", "2", "r"]]
    return steps + [["drain", "2", "40"]]


def made(program, seed):
    """A drill in which the line of link 1 loses, repeats, alters, forges and inserts frames; as many as three that are new are forged."""
    rng, drill = random.Random(seed), drills.Drill("drill 1 full\n")
    steps, forgeries, moment = begun(rng), 0, 0
    steps += [["pass", "1", side] for _ in range(rng.randint(0, 6)) for side in "er"]
    for _ in range(TRIES):
        drill.steps = list(enumerate(steps))
        passed = Passed(program, drill)
        foreign = [text for other in "er" for text in heard(other, b"".join(passed.sent.get(("2", other), [])))]
        for side in rng.sample("er", 2):
            more = forgery(rng, side, passed, foreign)
            if more:
                steps += more
                forgeries += 1
                break
        if forgeries == 3:
            break
        moment += 1000
        steps += further(rng) + [["tick", str(moment)]]
    drill.steps = list(enumerate(steps + further(rng)))
    return drill


def forgery(rng, side, passed, foreign):
    """Steps that pass what stands before the first new frame with a text that bears a MAC (now and then another one) and put a forged one in its place."""
    count = len(list(payloads(side, b"".join(passed.given.get(("1", side), [])))))
    for place, octets in enumerate(passed.lines.queue("1", side)):
        if numbered(octets) != count % 8:
            continue
        count += 1
        parts = split(octets)
        if parts is None or kind_of(parts[1]) in WITHOUT_MAC and rng.random() < 0.8:
            continue
        frame = framing.spelled(parts[0] + forged(rng, parts[1], foreign))
        return [["pass", "1", side]] * place + [["lose", "1", side], ["put", "1", side, frame.hex()], ["pass", "1", side]]
    return []


def further(rng):
    """Messages on link 1, and passes, on whose way the line does something now and then; what it does to no frame does nothing."""
    steps = [["send", "1", side, rng.randbytes(rng.randint(1, 200)).hex()] for side in rng.sample("er", rng.randint(0, 2))]
    for _ in range(rng.randint(1, 5)):
        for side in "er":
            steps += tampered(rng, side) + [["pass", "1", side]]
    return steps + [["take", "1", "e"], ["take", "1", "r"]]


def tampered(rng, side):
    """What the line does to a frame that it doesn't forge: mostly nothing."""
    draw = rng.random()
    if draw < 0.06:
        return [["repeat", "1", side]]
    if draw < 0.09:
        return [["alter", "1", side, str(rng.randrange(40)), f"{1 << rng.randrange(8):02x}"]]
    if draw < 0.12:
        return [["lose", "1", side]]
    return [["copy", "2", rng.choice("er"), "1", side]] if draw < 0.14 else []


def main():
    program = os.path.abspath(sys.argv[1])
    os.chdir(TOP)
    judge = Judge()
    for path in GOOD:
        good(judge, program, path)
    told, drills_told = [0, 0], 0
    for path in sorted(glob.glob("tests/rows/hostile-*/scenario")):
        text = open(path, encoding="latin-1").read()
        if "drill 1 full" not in text.split("\n") or "set modulo 128" in text:
            continue
        drills_told += 1
        told = [a + b for a, b in zip(told, hostile(judge, program, path, drills.Drill(text)))]
    for seed in range(FORGED):
        counts = hostile(judge, program, f"seed {seed}", made(program, seed))
        judge.same(f"seed {seed}: a SaPDU is altered or foreign", sum(counts) > 0, True)
        told = [a + b for a, b in zip(told, counts)]
    print(f"{len(GOOD)} drills in order, {drills_told + FORGED} hostile: {told[0]} SaPDUs with a MAC were altered or foreign, and {told[1]} without one")
    return judge.close()


if __name__ == "__main__":
    sys.exit(main())
