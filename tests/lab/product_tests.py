"""The decoder against the program: each drill of levels link and full is run with its frames shown, and what the decoder reads in each frame agrees
with what the drill printed of it."""
import collections
import glob
import os
import random

from decoding import framing, safety
from drills import Drill, Lines, NoRun, outcomes_of, printed_by
from ends import OTHER, Ends

KMAC = "0123456789abcdef23456789abcdef01456789abcdef0123"
TOLD = ("up", "connected", "accepted", "released")
CHANGES = ("put", "copy", "lose", "repeat", "alter")
STEP_LINES = {"send": ("refused", "frame"), "take": ("taken", "none", "frame"), "release": ("released", "frame"), "tick": ("released", "frame")}


class Run:
    """A drill of level link or full, step by step."""

    def __init__(self, drill):
        self.drill = drill
        self.lines = Lines()
        self.ends = {}

    def step(self, words, piece):
        name, link = words[0], words[1]
        if name in ("wire", "link"):
            numbers = dict(engine=int(words[2]), rbc=int(words[3]), ra=words[6].lower(), rb=words[7].lower()) if name == "link" else {}
            self.ends[link] = Ends(link, self.drill.level, self.drill.modulo, numbers)
        if name in ("pass", "drain"):
            self._pass(words, piece)
        elif name in CHANGES:
            self.lines.change(words)
        else:
            self._own(words, piece)

    def _frames(self, piece, earlier):
        for words in piece:
            if words[2] == "frame":
                octets = bytes.fromhex(words[3])
                ends = self.ends[words[0]]
                ends.sends(words[1], octets, earlier.get((words[0], words[1]), ends.ends[words[1]].taken))
                self.lines.queue(words[0], words[1]).append(octets)

    def _pass(self, words, piece):
        """The end that gets octets prints what they say, and answers."""
        passed = self.lines.take_for(words)
        ends = self.ends[words[1]]
        if passed is None:
            ends.check(all(line[2] == "empty" for line in piece), "a pass of nothing printed", piece)
            return
        side = OTHER[passed[0]]
        ends.check(all(line[:2] == [words[1], side] for line in piece), "another end printed", piece)
        was = ends.ends[side].taken
        released = ends.ends[side].released
        wanted = ends.hears(passed[0], passed[1])
        ends.check(not released or not piece, side, "printed", piece, "behind its release")
        ends.told(side, [" ".join(line[2:]).removesuffix(" forged") for line in piece if line[2] != "frame"], wanted)
        self._frames(piece, {(words[1], side): was})

    def _own(self, words, piece):
        """What an end does by itself: at its opening, at a tick, or by its user."""
        for line in piece:
            ends = self.ends[line[0]]
            ends.check(line[2] in STEP_LINES.get(words[0], ("frame",)), words[0], "printed", line)
            if line[2] == "released":
                ends.ends[line[1]].released = True
                ends.check(" ".join(line[3:]) in (["0 " + words[3] + " local"] if words[0] == "release" else
                                                  ["1 1 local", "1 2 local", "6 1 local"]), words[0], "printed", line)
            if line[2] == "taken":
                accepted = ends.ends[line[1]].accepted
                ends.check(accepted and line[3] == accepted.pop(0).hex(), "took", line[3])
        if words[0] == "send" and not any(line[2] == "refused" for line in piece):
            self.ends[words[1]].ends[words[2]].handed.append(bytes.fromhex(words[3]))
        self._frames(piece, {})


def compared(program, text):
    """How many frames the ends of this drill sent, how they were released, and the faults that were found."""
    drill = Drill(text)
    run = Run(drill)
    for words, piece in outcomes_of(program, drill):
        run.step(words, piece)
    for ends in run.ends.values():
        ends.close()
    faults = [fault for ends in run.ends.values() for fault in ends.faults]
    releases = [release for ends in run.ends.values() for release in ends.releases]
    return sum(ends.frames for ends in run.ends.values()), releases, faults


def compared_safe(program, text):
    """The same at level safe, where a frame is a SaPDU: it has its sender's flag, and a DT the user's octets."""
    drill = Drill(text)
    faults, count, handed, sent = [], 0, {}, {}
    for words, piece in outcomes_of(program, drill):
        if words[0] == "send" and not any(line[2] == "refused" for line in piece):
            handed.setdefault((words[1], words[2]), []).append(bytes.fromhex(words[3]))
        for line in piece:
            if line[2] == "frame":
                sapdu = safety.read_sapdu(bytes.fromhex(line[3]))
                count += 1
                if sapdu.sender != line[1]:
                    faults.append(line)
                if sapdu.kind == "DT":
                    sent.setdefault((line[0], line[1]), []).append(sapdu.user)
    if handed != sent:
        faults.append("texts that differ from those that were sent")
    return count, [], faults


COMPARE = {"safe": compared_safe, "link": compared, "full": compared}


def drill_texts():
    """Name and text of each drill in tests/rows and examples."""
    for path in sorted(glob.glob("tests/rows/*/args")):
        with open(path, encoding="latin-1") as lines:
            words = lines.read().split("\n")
        file = os.path.join(os.path.dirname(path), words[1] if len(words) > 1 else "")
        if words[0] == "drill" and os.path.isfile(file):
            with open(file, encoding="latin-1") as text:
                yield os.path.basename(os.path.dirname(path)), text.read()
    for path in sorted(glob.glob("examples/*.drill")):
        with open(path, encoding="latin-1") as text:
            yield path, text.read()


def rows(judge, program):
    """Each drill of the levels whose rules the decoder has, go-back among them."""
    total = {}
    for name, text in drill_texts():
        try:
            level = Drill(text).level
            if level not in COMPARE:
                continue
            count, _, faults = COMPARE[level](program, text)
        except NoRun:
            continue
        judge.none(f"the drill {name}", faults)
        drills, frames = total.get(level, (0, 0))
        total[level] = drills + 1, frames + count
    for level, (drills, frames) in sorted(total.items()):
        print(f"level {level}: {frames} frames of {drills} drills")
    judge.same("drills of each level", min(total.get(level, (0, 0))[1] > 100 for level in ("safe", "link", "full")), True)


def altered(draw, octets):
    """Octets with a few changed, left out, or put in."""
    octets = bytearray(octets)
    for _ in range(draw.choice((1, 1, 1, 2, 3))):
        place = draw.randrange(len(octets)) if octets else 0
        kind = draw.randrange(5)
        if kind == 0 and octets:
            del octets[place:]
        elif kind == 1 and octets:
            del octets[place]
        elif kind == 2:
            octets[place:place] = bytes([draw.choice((0, 1, 0x80, 0xC0, 0xFF, draw.randrange(256)))] * draw.choice((1, 1, 2, 40)))
        elif octets:
            octets[place] = draw.choice((octets[place] ^ 1 << draw.randrange(8), draw.randrange(256), 0, 0x80))
    return bytes(octets)


def hostile_drill(seed, program, run_up):
    """A drill whose links stop behind some passes of their set-up, and where an altered copy of the frame that waits then comes first."""
    draw = random.Random(seed)
    lines = []
    for link in range(1, 41):
        lines.append(f"link {link} 5 9 {KMAC} {KMAC} 1122334455667788 0102030405060708")
        lines.append(f"drain {link} {run_up}")
        if run_up > 20:
            lines.append(f"send {link} {draw.choice('er')} {'ab' * draw.choice((1, 200, 1000))}")
    text = "drill 1 full\nset show 1\n" + "\n".join(lines) + "\n"
    waiting = frames_waiting(program, text)
    for link in range(1, 41):
        for side in "er":
            for octets in waiting.get((str(link), side), [])[:1]:
                lines.append(f"put {link} {side} {spoilt(draw, octets).hex() or '-'}")
                lines.append(f"drain {link} 9")
    return "drill 1 full\n" + "\n".join(lines) + "\n"


def spoilt(draw, octets):
    """A frame with something altered: on the line, in its content, or in its payload; the latter with a check sequence that is right."""
    content = framing.frames_of(octets)[0].without_check
    kind = draw.randrange(8)
    if kind == 0:
        return altered(draw, octets)
    if kind == 1:
        return framing.spelled(altered(draw, content))
    if kind == 2:
        return framing.spelled(content[:4] + altered(draw, content[4:]))
    return framing.spelled(content[:2] + altered(draw, content[2:]))


def frames_waiting(program, text):
    """The frames that wait at the end of a drill, by link and side."""
    run = Run(Drill(text))
    for words, piece in outcomes_of(program, run.drill):
        run.step(words, piece)
    return run.lines.waiting


def hostile(judge, program):
    """Altered frames at each stage of a set-up, and behind it: the end releases with the reason that the decoder names, and else with none."""
    seen = collections.Counter()
    for seed, run_up in enumerate((1, 2, 2, 3, 3, 4, 5, 6, 7, 8, 40, 40, 40)):
        _, releases, faults = compared(program, hostile_drill(seed, program, run_up))
        seen.update(releases)
        judge.none(f"altered frames behind {run_up} passes, draw {seed}", faults)
    print("releases by altered frames: " + ", ".join(f"{reason}: {count}" for reason, count in sorted(seen.items())))


def run(judge, program):
    judge.same("the program runs", printed_by(program, "drill 1 full\n"), ([], 0))
    rows(judge, program)
    hostile(judge, program)
