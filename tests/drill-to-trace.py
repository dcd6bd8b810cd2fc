#!/usr/bin/env python3
"""Records the ends of a drill of level full as traces, and holds `replay` against what the drill told.

Usage: drill-to-trace.py PROGRAM DRILL. The drill is run once, with its frames shown, each step behind a mark, and each drain pass by pass. What
each end was given and what it told is written as a trace of its own; where both ends of a link have one key, the link is recorded as one
trace too. `replay` of each trace, its outcomes left out, must print the trace with its outcomes. Answers 'N traces' or the first difference.
"""
import os
import subprocess
import sys
import tempfile

MARK = 64
NAMES = ["modulo", "window", "credit", "size", "t1", "n2", "setup", "show"]
DEFAULTS = {"window": 7, "credit": 15, "size": 128, "t1": 1000, "n2": 5, "setup": 40000}
OUTCOMES = ["connected", "accepted", "taken", "none", "refused", "released"]


class Skipped(Exception):
    pass


def steps_of(path):
    """The settings of a drill and its steps, each drain as single ones."""
    settings, steps, begun = dict(DEFAULTS), [], False
    for line in open(path, encoding="latin-1").read().split("\n"):
        words = line.split(" ")
        words = [word for word in words if word]
        if not words or line.startswith("#"):
            continue
        if not begun:
            if words != ["drill", "1", "full"]:
                raise Skipped("not of level full")
            begun = True
        elif words[0] == "set":
            settings[words[1]] = int(words[2])
        elif words[0] == "drain":
            steps += [["drain", words[1], "1"]] * min(int(words[2]), 200)
        else:
            steps.append(words)
    if settings.get("modulo", 8) != 8:
        raise Skipped("traces have modulo 8")
    if any(word == str(MARK) for step in steps for word in step[1:2]):
        raise Skipped("uses the link of the mark")
    return settings, steps


def told_by(program, settings, steps, work):
    """What the drill prints of each step."""
    key = "0" * 48
    lines = ["drill 1 full", "set show 1"]
    lines += [f"set {name} {value}" for name, value in settings.items() if name != "show"]
    lines.append(f"link {MARK} 1 2 {key} {key} {'0' * 16} {'0' * 16}")
    mark = f"pass {MARK} r"
    lines.append(mark)
    for step in steps:
        lines += [" ".join(step), mark]
    with open(os.path.join(work, "drill"), "w", encoding="latin-1") as out:
        out.write("\n".join(lines) + "\n")
    run = subprocess.run([program, "drill", os.path.join(work, "drill")], stdout=subprocess.PIPE, check=False)
    if run.returncode != 0:
        raise Skipped(f"the drill ends with status {run.returncode}")
    pieces, piece = [], []
    for line in run.stdout.decode("latin-1").split("\n"):
        if line == f"{MARK} r empty":
            pieces.append(piece)
            piece = []
        elif not line.startswith(f"{MARK} "):
            piece.append(line.split(" "))
    return pieces[1:]


class Recorder:
    """The queues of the lines, and the events of each end with their outcomes."""

    def __init__(self):
        self.waiting, self.events, self.links, self.moment = {}, [], {}, 0

    def event(self, link, side, words, piece):
        """An event of an end: its outcomes are the lines of that end in this piece, and its frames join those that wait."""
        outcomes, frames = [], []
        for line in piece:
            if line[:2] != [link, side]:
                continue
            if line[2] == "frame":
                frames.append(line[3])
            elif line[2] in OUTCOMES:
                outcomes.append([word for word in line[2:] if word != "forged"])
        self.waiting[link, side] += frames
        if frames:
            outcomes.append(["octets", "".join(frames)])
        self.events.append((link, side, self.moment, words, outcomes))

    def open(self, words, piece):
        link, engine, rbc, ke, kr, ra, rb = words[1:]
        self.links[link] = (engine, rbc, ke, kr)
        self.waiting[link, "e"], self.waiting[link, "r"] = [], []
        self.event(link, "e", ["call", engine, rbc, rb], piece)
        self.event(link, "r", ["answer", rbc, ra], piece)

    def passed(self, link, side, piece):
        if self.waiting[link, side]:
            octets = self.waiting[link, side].pop(0)
            self.event(link, "r" if side == "e" else "e", ["octets", octets], piece)

    def step(self, words, piece):
        name, link = words[0], words[1]
        if name == "link":
            self.open(words, piece)
        elif name == "tick":
            self.moment = int(words[1])
            for number in sorted(self.links, key=int):
                for side in "er":
                    self.event(number, side, ["tick"], piece)
        elif name == "drain":
            self.passed(link, "e" if self.waiting[link, "e"] else "r", piece)
        elif name == "pass":
            self.passed(link, words[2], piece)
        elif name in ("send", "take", "release"):
            self.event(link, words[2], [name] + words[3:], piece)
        else:
            self.change(name, words, self.waiting[link, words[2]])

    def change(self, name, words, queue):
        if name == "put":
            queue.insert(0, words[3].lower())
        elif name == "copy":
            if queue:
                self.waiting[words[3], words[4]].insert(0, queue[0])
        elif queue and name == "lose":
            queue.pop(0)
        elif queue and name == "repeat":
            queue.insert(0, queue[0])
        elif queue and name == "alter" and int(words[3]) < len(queue[0]) // 2:
            octets = bytearray.fromhex(queue[0])
            octets[int(words[3])] ^= int(words[4], 16)
            queue[0] = octets.hex()


def texts_of(settings, recorder, ends):
    """The trace of some ends, without and with its outcomes."""
    header = "trace 1 " + " ".join(str(settings[name]) for name in NAMES[1:7])
    bare, whole = [header], [header]
    for link, side, moment, words, outcomes in recorder.events:
        if (link, side) not in ends:
            continue
        conn = 2 * int(link) - (side == "e")
        words = [word.lower() if words[0] in ("call", "answer", "octets", "send") else word for word in words]
        bare.append(f"> {moment} {conn} " + " ".join(words))
        whole.append(bare[-1])
        whole += [f"< {conn} " + " ".join(outcome) for outcome in outcomes]
    return "\n".join(bare) + "\n", "\n".join(whole) + "\n"


def key_file(engine, rbc, key):
    if key == "-":
        return "version = 1\n"
    return f'version = 1\n[[key]]\nengine = {engine}\nrbc = {rbc}\nkmac = "{key}"\n'


def main():
    program, path = os.path.abspath(sys.argv[1]), sys.argv[2]
    count = 0
    with tempfile.TemporaryDirectory() as work:
        try:
            settings, steps = steps_of(path)
            pieces = told_by(program, settings, steps, work)
        except Skipped as why:
            print(f"skipped: {why}")
            return 0
        recorder = Recorder()
        for words, piece in zip(steps, pieces):
            recorder.step(words, piece)
        for link, (engine, rbc, ke, kr) in recorder.links.items():
            for ends, key in (["e"], ke), (["r"], kr), (["e", "r"], ke if ke == kr else None):
                if key is None:
                    continue
                bare, whole = texts_of(settings, recorder, {(link, side) for side in ends})
                for name, text in ("keys", key_file(engine, rbc, key)), ("trace", bare):
                    with open(os.path.join(work, name), "w", encoding="latin-1") as out:
                        out.write(text)
                run = subprocess.run([program, "replay", "keys", "trace"], cwd=work, stdout=subprocess.PIPE, check=False)
                got = run.stdout.decode("latin-1")
                if run.returncode != 0 or got != whole:
                    pairs = zip(got.split("\n"), whole.split("\n"))
                    first = next((f"{a[:200]}\nwanted\n{b[:200]}" for a, b in pairs if a != b), "one text goes on")
                    print(f"link {link}, ends {ends}: status {run.returncode}, got\n{first}")
                    return 1
                count += 1
    print(f"{count} traces")
    return 0


sys.exit(main())
