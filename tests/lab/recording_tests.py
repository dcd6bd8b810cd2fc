"""tools/recording: the parts of recordings, of cut ones, of long ones; and each part against the built program, which replays it to itself."""
import contextlib
import importlib.machinery
import importlib.util
import io
import os
import subprocess
import sys
import tempfile
from unittest import mock

KEYS = "examples/recorded-session.keys"
SESSION = "examples/recorded-session.trace"
HEADER = b"trace 1 7 15 128 1000 5 40000\n"
SABM, UA = "7e013febdf7e", "7e017383577e"
LONGEST = 16_777_216


def split(text, *words):
    """What is printed of a text, what is told, and the status."""
    run = subprocess.run([sys.executable, "tools/recording", *words], input=text, stdout=subprocess.PIPE, stderr=subprocess.PIPE, check=False)
    return run.stdout, run.stderr.decode().split("\n")[:-1], run.returncode


def tool():
    """tools/recording as a module."""
    loader = importlib.machinery.SourceFileLoader("recording_tool", "tools/recording")
    module = importlib.util.module_from_spec(importlib.util.spec_from_loader(loader.name, loader))
    loader.exec_module(module)
    return module


def split_here(main, text, *words):
    """What `split` answers, of the tool's `main` in this process: a process of its own takes a tenth of a second, and a recording is cut at hundreds of octets."""
    out, told = io.TextIOWrapper(io.BytesIO()), io.StringIO()
    given = (("argv", ["recording", *words]), ("stdin", io.TextIOWrapper(io.BytesIO(text))), ("stdout", out), ("stderr", told))
    with contextlib.ExitStack() as stack:
        for name, value in given:
            stack.enter_context(mock.patch.object(sys, name, value))
        status = main()
    out.flush()
    return out.buffer.getvalue(), told.getvalue().split("\n")[:-1], status


def parts(text, *words):
    """The parts of a text by their connections, what is told, and the status."""
    with tempfile.TemporaryDirectory() as folder:
        printed, told, status = split(text, "--folder", folder, *words)
        paths = printed.decode().split("\n")[:-1]
        found = {}
        for path in paths:
            with open(path, "rb") as file:
                found[int(os.path.basename(path)[len("connection-"):-len(".trace")])] = file.read()
        if sorted(found) != list(found) or sorted(os.listdir(folder)) != sorted(map(os.path.basename, paths)):
            told.append(f"other files than those that were named: {paths}")
        return found, told, status


def session():
    with open(SESSION, "rb") as file:
        return b"".join(line for line in file if not line.startswith(b"#"))


def lines_of(text, conn):
    """The lines of a connection, told by their words alone."""
    return b"".join(line for line in text.splitlines(keepends=True)
                    if line.split()[:1] == [b">"] and line.split()[2] == b"%d" % conn or line.split()[:2] == [b"<", b"%d" % conn])


def whole_ones(judge):
    text = session()
    found, told, status = parts(text)
    judge.same("the parts of a session", (found, told, status), ({n: HEADER + lines_of(text, n) for n in (1, 2)}, [], 0))
    judge.same("one part", split(text, "2"), (found[2], [], 0))
    judge.same("no such part", split(text, "3"), (HEADER, ["no line of connection 3"], 1))
    judge.same("a whole recording stays", split(text, "--whole"), (text, [], 0))
    judge.same("a header alone", (parts(HEADER), split(HEADER, "--whole")), (({}, [], 0), (HEADER, [], 0)))
    away = HEADER + b"> 1 1 answer 9 0000000000000001\n> 2 2 full 256\n> 2 3 unserved 1\n> 3 1 ended\n< 1 released 1 5 local\n"
    judge.same("connections that got no end", parts(away), ({
        1: HEADER + b"> 1 1 answer 9 0000000000000001\n> 3 1 ended\n< 1 released 1 5 local\n", 2: HEADER + b"> 2 2 full 256\n",
        3: HEADER + b"> 2 3 unserved 1\n"}, [], 0))
    judge.same("events alone", split(away, "--whole", "--events")[0], away.replace(b"< 1 released 1 5 local\n", b""))
    for words in (["1", "2"], ["--whole", "1"], ["--folder", "f", "1"], ["--folder", "f", "--whole"]):
        judge.same(f"the words {words}", split(text, *words)[2], 2)


def cut_ones(judge):
    """A recording that ends at any octet: whole events are left, all but the last one, and what is left out is told."""
    text = session()
    ends = [0]
    for line in text.splitlines(keepends=True):
        ends.append(ends[-1] + len(line))
    # Behind which octet each event begins, and the end.
    events = [end for end in ends[1:-1] if text[end:end + 1] == b">"] + [len(text)]
    faults = []
    main = tool().main
    for place in [*range(len(HEADER) + 1, 700), *range(701, len(text), 97)]:
        left, told, status = split_here(main, text[:place], "--whole")
        if place % 40 == 0 and split(text[:place], "--whole") != (left, told, status):
            faults.append((place, "in a process of its own"))
        if place in ends:
            wanted, count = text[:place], 0
        elif text[max(end for end in ends if end < place):][:1] == b"<":
            wanted, count = text[:max(event for event in events if event < place)], 2
        else:
            wanted, count = text[:max(end for end in ends if end < place)], 1
        if (left, len(told), status) != (wanted, count, min(count, 1)):
            faults.append((place, len(left), len(wanted), told, status))
    judge.none("a recording that is cut at an octet", faults)
    judge.same("what is told of a cut event", split(text[:ends[4] + 9], "--whole")[1], ["line 5: the recording is cut in this line, which is left out: > 0 2 oct"])
    judge.same("what is told of a cut outcome", split(text[:ends[5] + 9], "--whole")[1],
               ["line 5: left out, since its outcomes are cut: > 0 2 octets 7e013febdf7e",
                "line 6: the recording is cut in this line, which is left out: < 2 octet"])
    judge.same("a cut header", split(text[:9], "--whole"), (b"", ["line 1: no header of a trace: `trace 1` and six numbers are wanted"], 1))
    judge.same("a header without its end", split(HEADER[:-1], "--whole"), (b"", ["line 1: the header is cut; nothing is left"], 1))
    judge.same("nothing", split(b"", "--whole"), (b"", ["line 1: no line"], 1))


def ended_ones(judge):
    text = session()
    count = text.count(b"\n")
    for why in ("wires", "memory"):
        judge.same(f"a recording that ends with ! {why}", split(text + f"! {why}\n".encode(), "--whole"), (text, [f"line {count + 1}: left out: ! {why}"], 1))
    judge.same("one whose last line is cut", split(text + b"! wir", "--whole"),
               (text, [f"line {count + 1}: the recording is cut in this line, which is left out: ! wir"], 1))
    judge.same("two recordings in one file", split(text + text, "--whole"),
               (text, [f"line {count + 1}: another recording begins here; it and what is behind it are left out"], 1))
    rows = [(b"link 1\n", "no line of a trace: link"), (b"> 1 1\n", "an event without its word"), (b"> 1 9 tick\n", "connection 9 wasn't opened by call or answer"),
            (b"> 1 1 answer 9 0000000000000001\n", "connection 1 is opened twice"), (b"< 2 none\n", "an outcome of connection 2 without its event")]
    for line, why in rows:
        judge.same(f"the bad line {line}", split(text + line + b"> 5 1 tick\n", "--whole"), (text + b"> 5 1 tick\n", [f"line {count + 1}: {why}"], 1))


def replayed(program, text):
    """Status and text of a replay."""
    with tempfile.NamedTemporaryFile() as file:
        file.write(text)
        file.flush()
        run = subprocess.run([program, "replay", KEYS, file.name], stdout=subprocess.PIPE, check=False)
        return run.returncode, run.stdout


def long_one():
    """A recording above the most that a replay takes, below the most that is fetched: ten connections of octets that are no frame, and one above it by itself, but not by its
    events, which have set-up frames too."""
    lines = [HEADER.decode()] + [f"> 1 {conn} answer 9 {conn:016x}\n" for conn in range(1, 12)]
    noise = bytes(range(0x80, 0x100)) * 32
    for moment in range(2, 152):
        lines += [f"> {moment} {conn} octets {noise.hex()}\n" for conn in range(1, 11)]
    lines += [f"> {moment} 11 octets {noise.hex()}\n" for moment in range(152, 2052)]
    lines += [f"> {moment} 11 octets {SABM * 682}\n" + f"< 11 octets {UA}\n" * 682 for moment in range(2052, 2152)]
    return "".join(lines).encode()


def against(judge, program):
    text = session()
    for number, part in parts(text)[0].items():
        judge.same(f"connection {number} replays to itself", replayed(program, part), (0, part))
    for place in range(len(text) - 400, len(text), 37):
        for number, part in parts(text[:place])[0].items():
            status, printed = replayed(program, part)
            judge.same(f"connection {number} of a recording that is cut at octet {place}", (status, printed.startswith(part)), (0, True))
            if text[place - 1:place] != b"\n":
                judge.same("to itself", printed == part, True)
    for number, part in parts(text + b"! wires\n")[0].items():
        judge.same(f"connection {number} of one that ends with ! wires", replayed(program, part), (0, part))
    text = long_one()
    judge.same("a long recording isn't replayed", (len(text) > LONGEST, replayed(program, text)), (True, (3, b"! line 0 long\n")))
    found, told, status = parts(text)
    events = parts(text, "--events")
    judge.same("its parts", (sorted(found), [line[:40] for line in told], status, events[1:]),
               (list(range(1, 12)), [f"connection 11: {len(found[11])} octets, more tha"], 1, ([], 0)))
    judge.same("their sum", sum(len(part) - len(HEADER) for part in found.values()), len(text) - len(HEADER))
    judge.none("parts that don't replay to themselves", [n for n in range(1, 11) if replayed(program, found[n]) != (0, found[n])])
    judge.same("the long part by its events", (len(found[11]) > LONGEST > len(events[0][11]), replayed(program, events[0][11]) == (0, found[11])), (True, True))


def run(judge):
    for part in (whole_ones, cut_ones, ended_ones):
        part(judge)
