"""Reads a drill file: its level, its settings, its steps. A line that is none is named with its number, and reading goes on behind it, but not behind a bad header."""
from dataclasses import dataclass, field
from typing import Dict, List

from decoding.sources import BadLine, BadWord, NoHeader, decimal, octets_of, side_of

LEVELS = ("safe", "link", "link-sr", "full")
# The window at level link-sr where no line says it.
SELECTIVE_WINDOW = 4
# The settings: each name with what it is where no line says it, and the numbers that it takes.
SETTINGS = {"modulo": (8, (8, 128)), "window": (7, range(1, 32)), "credit": (15, range(1, 16)), "size": (128, (128, 256, 512, 1024)),
            "t1": (1000, range(100, 60001)), "n2": (5, range(1, 11)), "setup": (40000, range(1000, 600001)), "show": (0, (0, 1))}
# The words behind each word: n a link or a decimal, s a side, x octets in hexadecimal, k a key or a random number, which isn't read.
TABLE = {"link": "n n n k k k k", "fixed": "n n n k k", "wire": "n", "send": "n s x", "pass": "n s", "lose": "n s", "repeat": "n s",
         "alter": "n s n x", "put": "n s x", "copy": "n s n s", "take": "n s", "release": "n s n", "tick": "n", "drain": "n n"}
READERS = {"n": decimal, "s": side_of, "x": octets_of, "k": str}


@dataclass(frozen=True)
class Step:
    """A step: its line in the file, its word, and its arguments, read."""

    line: int
    word: str
    values: tuple


@dataclass
class Drill:
    """A drill file that was read. Level link-sr is level link with stations that are `selective`: they have selective reject."""

    level: str = ""
    selective: bool = False
    settings: Dict[str, int] = field(default_factory=lambda: {name: usual for name, (usual, _) in SETTINGS.items()})
    steps: List[Step] = field(default_factory=list)
    bad: List[BadLine] = field(default_factory=list)


def read(text):
    """Reads the text of a drill file."""
    drill = Drill()
    for number, line in enumerate(text.split("\n"), 1):
        words = [word for word in line.split(" ") if word]
        if not words or line.startswith("#"):
            continue
        try:
            _line(drill, number, words)
        except NoHeader as why:
            drill.bad.append(BadLine(number, f"{why}; nothing behind it is read"))
            break
        except BadWord as why:
            drill.bad.append(BadLine(number, str(why)))
    return drill


def _line(drill, number, words):
    if not drill.level:
        if words[:2] != ["drill", "1"] or len(words) != 3 or words[2] not in LEVELS:
            raise NoHeader("no header of a drill: `drill 1 safe`, `drill 1 link`, `drill 1 link-sr` or `drill 1 full` is wanted")
        drill.level, drill.selective = words[2].removesuffix("-sr"), words[2] == "link-sr"
        if drill.selective:
            drill.settings["window"] = SELECTIVE_WINDOW
    elif words[0] == "set":
        if len(words) != 3 or words[1] not in SETTINGS or decimal(words[2]) not in SETTINGS[words[1]][1]:
            raise BadWord(f"no setting: {' '.join(words[1:])[:40]}")
        drill.settings[words[1]] = decimal(words[2])
    else:
        drill.steps.append(_step(number, words))


def _step(number, words):
    if words[0] not in TABLE:
        raise BadWord(f"no step of a drill: {words[0][:40]}")
    letters = TABLE[words[0]].split()
    if len(letters) != len(words) - 1:
        raise BadWord(f"{words[0]} with other words than it takes: {' '.join(words[1:])[:40]}")
    values = tuple(READERS[letter](word) for letter, word in zip(letters, words[1:]))
    if words[0] == "alter" and (len(values[3]) != 1 or values[3] == b"\0"):
        raise BadWord("alter wants one octet other than 00")
    return Step(number, words[0], values)
