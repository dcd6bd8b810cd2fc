#!/usr/bin/env python3
"""Holds what `tools/chart --drill` takes as printed by each step against what each step prints.

Usage: followed-steps.py PROGRAM DRILL..

Each drill is run twice, with its frames shown: once as it is, and once with a mark behind each step and each drain pass by pass, so that the
text shows which step printed what. The first text is followed as for a chart; each step and each pass must have got the same lines. Prints
'N drills, M steps' or the first difference. Drills that end with another status than 0 are left out.
"""
import os
import subprocess
import sys
import tempfile

sys.path.insert(0, os.path.join(os.path.dirname(os.path.abspath(__file__)), "..", "..", "tools"))

from charting import followed, steps  # noqa: E402
from decoding import sources  # noqa: E402

MARK = 64
OPENED = {"full": f"link {MARK} 1 2 {'0' * 48} {'0' * 48} {'0' * 16} {'0' * 16}", "link": f"wire {MARK}",
          "safe": f"fixed {MARK} 1 2 {'0' * 48} {'0' * 48}"}


class Recorded(followed.Follower):
    """Follows a drill, and writes down which lines of the text each step and each pass of a drain got."""

    def __init__(self, reading, drill):
        super().__init__(reading, drill)
        self.got = []

    def _step(self, step):
        begun = self.place
        super()._step(step)
        if step.word != "drain":
            self.got.append((step, self._lines(begun)))
        else:
            self.got = [(step if one is None else one, lines) for one, lines in self.got]

    def _arrive(self, number, wire, side):
        begun = self.place
        super()._arrive(number, wire, side)
        if self.drill.steps[self.step_place].word == "drain":
            self.got.append((None, self._lines(begun)))

    def _lines(self, begun):
        return [item.line for _, item in self.items[begun:self.place]]


def printed(program, text):
    """What the program prints of a drill; None where its status isn't 0."""
    with tempfile.NamedTemporaryFile("w", suffix=".drill", encoding="latin-1") as file:
        file.write(text)
        file.flush()
        run = subprocess.run([program, "drill", file.name], stdout=subprocess.PIPE, check=False)
    return run.stdout.decode("latin-1") if run.returncode == 0 else None


def shown(text):
    """The lines of a drill file that say something, with frames shown."""
    lines = [line for line in text.split("\n") if line.split() and not line.startswith("#") and line.split()[:2] != ["set", "show"]]
    return lines[:1] + ["set show 1"] + lines[1:]


def marked(drill, lines, got):
    """The drill with a mark behind each step, and each drain as its passes."""
    mark = f"pass {MARK} r"
    head = [line for line in lines if line.split()[0] in ("drill", "set")] + [OPENED[drill.level], mark]
    for step, _ in got:
        head += [f"drain {step.values[0]} 1" if step.word == "drain" else lines[step.line - 1], mark]
    return "\n".join(head) + "\n"


def pieces(text):
    """What was printed between two marks, each."""
    found, piece = [], []
    for line in text.split("\n"):
        if line == f"{MARK} r empty":
            found.append(piece)
            piece = []
        elif not line.startswith(f"{MARK} ") and line.split()[1:2] != ["passes"]:
            piece.append(line)
    return found[1:]


def compared(program, path):
    """How many steps and passes got their lines; None where the drill is left out. Raises AssertionError at a difference."""
    with open(path, encoding="latin-1") as file:
        lines = shown(file.read())
    text = printed(program, "\n".join(lines) + "\n")
    if text is None:
        return None
    drill = steps.read("\n".join(lines))
    if drill.bad or any(step.values[0] == MARK for step in drill.steps if step.word in ("link", "wire", "fixed")):
        return None
    follower = Recorded(sources.read(text), drill)
    follower.charts()
    assert not follower.bad and not follower.bad_steps, f"{path}: {(follower.bad + follower.bad_steps)[0]}"
    wanted = pieces(printed(program, marked(drill, lines, follower.got)))
    of_text = text.split("\n")
    for (step, got), piece in zip(follower.got, wanted):
        got = [of_text[line - 1] for line in got]
        assert got == piece, f"{path}: {lines[step.line - 1][:60]}: got {got}, wanted {piece}"
    assert len(wanted) == len(follower.got), f"{path}: {len(follower.got)} steps, wanted {len(wanted)}"
    return len(wanted)


def main():
    program, drills, total = os.path.abspath(sys.argv[1]), 0, 0
    for path in sys.argv[2:]:
        try:
            count = compared(program, path)
        except AssertionError as why:
            print(why)
            return 1
        drills, total = drills + (count is not None), total + (count or 0)
    print(f"{drills} drills, {total} steps")
    return 0


sys.exit(main())
