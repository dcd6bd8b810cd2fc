"""Mutants for the tools: fuzz-tools.py [COUNT [SEED]], for fuzz-tools.sh beside it."""
import glob
import importlib.machinery
import importlib.util
import os
import random
import signal
import sys
import tempfile
import time
from xml.etree import ElementTree

sys.dont_write_bytecode = True
TOP = os.path.dirname(os.path.dirname(os.path.abspath(__file__)))
sys.path.insert(0, os.path.join(TOP, "tools"))

import command  # noqa: E402
from decoding import captures, recordings, sources  # noqa: E402

COUNT, SEED = 200, 1
MOST_SECONDS = 30
LONGEST = 9000
# The words of each tool; {} is the drill file that belongs to the text.
WORDS = [("tap", []), ("tap", ["--engine", "5", "--rbc", "9", "1"]), ("tap", ["--sent"]), ("pcap", []), ("chart", ["--html"]), ("chart", ["--html", "--drill", "{}"]), ("chart", ["1"]),
         ("recording", ["--whole"]), ("recording", ["--events", "1"])]
ODD_WORDS = [b"", b"-", b"-1", b"0", b"1", b"4", b"65", b"255", b"18446744073709551615", b"18446744073709551616", b"9" * 5000, b"1" + b"0" * 15, b"x", b"\xb2", b"7e", b"7e0",
             b"7e7e", b"7d7e", b"7e013febdf7e", b"00" * 1100, b"\x1b[2J", b"\0", b"\xff\xfe", b"e", b"r", b"octets", b"frame", b"released", b"connected", b"forged", b"full",
             b"unserved", b"call", b"answer", b"passes", b"end", b"trace", b"tap", b"!", b">", b"<", b"tick", b"ended", b"none", b"taken", b"refused", b"overfull", b"up", b"local",
             b"relay", b"open", b"closed"]


# A recording of `serve` with connections that were turned away, one that began before it, and its end.
TURNED_AWAY = b"""trace 1 7 15 128 1000 5 40000
> 10 1 answer 9 0000000000000001
> 10 1 octets 7e013febdf7e
< 1 octets 7e017383577e
> 11 2 full 256
> 12 3 unserved 65536
> 12 1 stalled
< 1 released 1 7 local
> 13 4 octets 7e01
! wires
"""


def tool(name):
    """A tool as a module."""
    loader = importlib.machinery.SourceFileLoader(f"{name}_tool", os.path.join(TOP, "tools", name))
    module = importlib.util.module_from_spec(importlib.util.spec_from_loader(loader.name, loader))
    loader.exec_module(module)
    return module


class Run:
    """A run of a tool in a process of its own, which begins as a copy of this one: Python isn't started anew."""

    def __init__(self, work, name, words, data):
        paths = [os.path.join(work, part) for part in ("given", "printed", "told")]
        with open(paths[0], "wb") as file:
            file.write(data)
        child = os.fork()
        if child == 0:
            self.within(name, words, paths)
        self.status, end = None, time.monotonic() + MOST_SECONDS
        while time.monotonic() < end:
            done, status = os.waitpid(child, os.WNOHANG)
            if done:
                self.status = os.waitstatus_to_exitcode(status)
                break
            time.sleep(0.002)
        else:
            os.kill(child, signal.SIGKILL)
            os.waitpid(child, 0)
        with open(paths[1], "rb") as printed, open(paths[2], "rb") as told:
            self.printed, self.told = printed.read(), told.read().decode(errors="replace")

    @staticmethod
    def within(name, words, paths):
        """In the child: the tool, as its own process has it. Never returns."""
        for number, (path, flags) in enumerate(zip(paths, (os.O_RDONLY, os.O_WRONLY | os.O_CREAT | os.O_TRUNC, os.O_WRONLY | os.O_CREAT | os.O_TRUNC))):
            os.dup2(os.open(path, flags, 0o600), number)
        sys.stdin, sys.stdout, sys.stderr = open(0), open(1, "w"), open(2, "w", errors="backslashreplace")
        sys.argv = [f"tools/{name}", *words]
        status = 99
        try:
            command.run(TOOLS[name].main)
        except SystemExit as end:
            status = end.code or 0
            sys.stdout.flush()
            sys.stderr.flush()
        finally:
            os._exit(status)


def faults_of(run, name):
    """What is wrong with a run."""
    if run.status is None:
        return f"no end within {MOST_SECONDS} seconds"
    if run.status not in (0, 1):
        return f"status {run.status}"
    lines = run.told.split("\n")
    if "Traceback" in run.told or "fault of this tool" in run.told or lines.pop() or not all(map(str.isprintable, lines)):
        return "what is told"
    if (run.status == 1) != bool(lines):
        return f"status {run.status}, and {len(lines)} lines are told"
    return fault_printed(run.printed, name)


def fault_printed(printed, name):
    """What is wrong with what a tool printed."""
    if name == "pcap" and captures.read(printed)[1]:
        return f"the capture: {captures.read(printed)[1][0]}"
    if name == "chart" and printed:
        ElementTree.fromstring(printed)
    if name == "tap":
        reading = sources.read(printed)
        return "" if reading.kind == sources.TAP and not reading.bad else f"the tap: {reading.bad[:1]}"
    if name == "recording" and printed:
        recording = recordings.Recording(iter(printed.splitlines(keepends=True)))
        again = b"".join(line for event in recording.events() for line in event.lines)
        return "" if not recording.told and recording.header + again == printed else f"the recording: {recording.told[:1]}"
    return ""


def texts():
    """(a text, the drill file that belongs to it or nothing) of each kind, from the rows of the tests and the examples."""
    with open(os.path.join(TOP, "tests/chart/relay-text.printed"), "rb") as file:
        relayed = file.read()
    found = [(TURNED_AWAY, os.devnull)] * 4 + [(relayed, os.devnull)] * 8
    for path in sorted(glob.glob(os.path.join(TOP, "tests/rows/*/stdout"))):
        folder = os.path.dirname(path)
        with open(path, "rb") as file:
            text = file.read(LONGEST + 1)
        drill = [name for name in (f"{folder}/scenario", f"{TOP}/examples/{os.path.basename(folder).removeprefix('example-')}.drill") if os.path.exists(name)]
        if len(text) <= LONGEST and (b" frame " in text or text.startswith(b"trace 1")):
            found.append((text, drill[0] if drill else os.devnull))
    for path in sorted(glob.glob(os.path.join(TOP, "tests/rows/*/tap"))):
        with open(path, "rb") as file:
            text = file.read(LONGEST + 1)
        if len(text) <= LONGEST:
            found.append((text, os.devnull))
    return found


def mutant(draw, data, other):
    """These octets with one to four things altered."""
    for _ in range(draw.choice((1, 1, 2, 4))):
        if b"\0" not in data and draw.random() < 0.7:
            data = mutant_text(draw, data, other)
            continue
        data = bytearray(data)
        place = draw.randrange(len(data) + 1)
        end = min(len(data), place + draw.choice((1, 2, 4, 16, 200)))
        how = draw.randrange(6)
        if how == 0 and place < len(data):
            data[place] ^= 1 << draw.randrange(8)
        elif how == 1:
            del data[place:end]
        elif how == 2:
            data[place:place] = data[place:end]
        elif how == 3:
            data[place:end] = draw.randbytes(end - place)
        elif how == 4:
            data[place:place] = draw.randbytes(draw.choice((1, 3, 8))) if draw.random() < 0.8 else other[:draw.randrange(len(other) + 1)]
        else:
            del data[place:]
        data = bytes(data)
    return data


def mutant_text(draw, data, other):
    """A text with a word or a line altered, left out, doubled or moved."""
    lines = data.split(b"\n")
    place = draw.randrange(len(lines))
    how = draw.randrange(6)
    if how <= 2:
        words = lines[place].split(b" ")
        number = draw.randrange(len(words))
        words[number:number + draw.randrange(2) + (how == 0)] = [draw.choice(ODD_WORDS)] if how < 2 else []
        lines[place] = b" ".join(words)
    elif how == 3:
        lines.insert(draw.randrange(len(lines) + 1), lines[place])
    elif how == 4:
        lines.insert(draw.randrange(len(lines) + 1), lines.pop(place))
    else:
        lines.insert(place, draw.choice(other.split(b"\n")))
    return b"\n".join(lines)


def main():
    count, seed = [int(word) for word in sys.argv[1:3]] + [COUNT, SEED][len(sys.argv[1:3]):]
    draw, begin = random.Random(seed), time.monotonic()
    passed = failed = 0
    known = texts()
    with tempfile.TemporaryDirectory(prefix="fuzz-tools-") as work:
        drill = os.path.join(work, "drill")
        for number in range(count):
            text, of = draw.choice(known)
            with open(of, "rb") as file:
                steps = file.read()
            other = draw.choice(known)[0]
            if number % 3 == 0:
                text = Run(work, "pcap", [], text).printed
            data = mutant(draw, text, other)
            with open(drill, "wb") as file:
                file.write(mutant(draw, steps, other) if steps and draw.random() < 0.5 else steps)
            for name, words in WORDS:
                run = Run(work, name, [drill if word == "{}" else word for word in words], data)
                try:
                    fault = faults_of(run, name)
                except Exception as why:  # noqa: BLE001
                    fault = f"what is printed: {why!r}"
                if not fault:
                    passed += 1
                    continue
                failed += 1
                kept = os.path.join(tempfile.gettempdir(), f"fuzz-tools-{seed}-{number}")
                with open(kept, "wb") as file:
                    file.write(data)
                print(f"mutant {number}, tools/{name} {' '.join(words)}: {fault}; kept as {kept}\n{run.told[-600:]}")
    print(f"{count} mutants of seed {seed} in {time.monotonic() - begin:.0f} seconds")
    print(f"{passed} passed, {failed} failed")
    return 1 if failed or not passed else 0


TOOLS = {name: tool(name) for name, _ in WORDS}

if __name__ == "__main__":
    os.chdir(TOP)
    sys.exit(main())
