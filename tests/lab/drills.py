"""Runs a drill with its frames shown, and tells what came of each step.

The drill is run once to learn how many passes each `drain` makes, and once with each drain as single passes and a mark behind each step: a pass on
a link of its own, whose called end never sends, prints `empty`.
"""
import os
import subprocess
import tempfile

KEY = "0" * 48
REFUSED = ("nolink", "twice", "back")


class NoRun(Exception):
    """A drill of which nothing can be seen: why."""


class Drill:
    """The header, the settings and the steps of a drill file, each a list of words with the number of its line."""

    def __init__(self, text):
        self.settings, self.steps, self.level = [], [], None
        for number, line in enumerate(text.split("\n"), 1):
            words = [word for word in line.split(" ") if word]
            if not words or line.startswith("#"):
                continue
            if self.level is None:
                if words[:2] != ["drill", "1"] or len(words) != 3:
                    raise NoRun("no drill")
                self.level = words[2]
            elif words[0] == "set":
                self.settings.append(words)
            else:
                self.steps.append((number, words))
        if self.level is None:
            raise NoRun("no drill")

    @property
    def modulo(self):
        return next((int(words[2]) for words in reversed(self.settings) if words[1] == "modulo"), 8)

    def text(self, steps):
        lines = [["drill", "1", self.level]] + self.settings + [["set", "show", "1"]] + steps
        return "".join(" ".join(words) + "\n" for words in lines)

    def free_link(self):
        used = {word for _, words in self.steps for word in words[1:4:2]}
        return next(str(number) for number in range(64, 0, -1) if str(number) not in used)


def printed_by(program, text):
    """The lines that the program prints of this drill, as lists of words, and its status."""
    with tempfile.TemporaryDirectory() as work:
        path = os.path.join(work, "scenario")
        with open(path, "w", encoding="latin-1") as out:
            out.write(text)
        run = subprocess.run([program, "drill", path], stdout=subprocess.PIPE, check=False, timeout=120)
    return [line.split(" ") for line in run.stdout.decode("latin-1").split("\n") if line], run.returncode


def first_run(program, drill):
    """The lines of the drill up to its end, or up to a step that is refused, which then is left out with all behind it."""
    lines, status = printed_by(program, drill.text([words for _, words in drill.steps]))
    if status == 3 and lines[-1][3] in REFUSED:
        place = int(lines[-1][2]) - len(drill.settings) - 3
        drill.steps = drill.steps[:place]
        lines, status = printed_by(program, drill.text([words for _, words in drill.steps]))
    if status != 0:
        raise NoRun(" ".join(lines[-1]) if lines else f"status {status}")
    return lines


def single_steps(drill, lines):
    """The steps, each drain as the single passes that it made."""
    counts = iter(int(words[2]) for words in lines if words[1] == "passes")
    steps = []
    for _, words in drill.steps:
        steps += [["drain", words[1], "1"]] * next(counts) if words[0] == "drain" else [words]
    return steps


def opening(level, link):
    return ["wire", link] if level == "link" else ["link", link, "1", "2", KEY, KEY, "0" * 16, "0" * 16]


def outcomes_of(program, drill):
    """Pairs of a step and the lines that came of it, drains as single passes."""
    lines = first_run(program, drill)
    steps = single_steps(drill, lines)
    mark = drill.free_link()
    marked = [opening(drill.level, mark)]
    for words in steps:
        marked += [words, ["pass", mark, "r"]]
    pieces, piece, seen = [], [], []
    for words in printed_by(program, drill.text(marked))[0]:
        if words == [mark, "r", "empty"]:
            pieces.append(piece)
            piece = []
        elif words[0] != mark and words[1] not in ("passes", "end"):
            piece.append(words)
            seen.append(words)
    if seen != [words for words in lines if words[1] not in ("passes", "end")] or len(pieces) != len(steps):
        raise AssertionError("the drill with single passes prints other lines")
    return list(zip(steps, pieces))


class Lines:
    """The frames that wait in each direction of each link, as the steps change them."""

    def __init__(self):
        self.waiting = {}

    def queue(self, link, side):
        return self.waiting.setdefault((link, side), [])

    def take_for(self, words):
        """For a pass: the side that sent and the octets that are passed, or None where nothing waits."""
        link = words[1]
        side = words[2] if words[0] == "pass" else "e" if self.queue(link, "e") else "r"
        queue = self.queue(link, side)
        return (side, queue.pop(0)) if queue else None

    def change(self, words):
        """For the steps by which the line loses, repeats, alters and inserts."""
        name, queue = words[0], self.queue(words[1], words[2]) if len(words) > 2 else []
        if name == "put":
            queue.insert(0, bytes.fromhex(words[3].replace("-", "")))
        elif name == "copy" and queue:
            self.queue(words[3], words[4]).insert(0, queue[0])
        elif name == "lose" and queue:
            queue.pop(0)
        elif name == "repeat" and queue:
            queue.insert(0, queue[0])
        elif name == "alter" and queue and int(words[3]) < len(queue[0]):
            octets = bytearray(queue[0])
            octets[int(words[3])] ^= int(words[4], 16)
            queue[0] = bytes(octets)
