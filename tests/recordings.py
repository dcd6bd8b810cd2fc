"""What `check` says of recordings: recordings.py PROGRAM."""

import os
import shutil
import subprocess
import sys
import tempfile

sys.dont_write_bytecode = True

from serving import KEYS, events_of, free_port, is_listened_at, is_train  # noqa: E402

program = os.path.abspath(sys.argv[1])
passed = failed = 0


def told(holds, what):
    global passed, failed
    if holds:
        passed += 1
    else:
        failed += 1
        print("failed:", what)


def checked(text):
    """Status and last line of a check of these octets."""
    with open(trace, "wb") as file:
        file.write(text)
    run = subprocess.run([program, "check", keys, trace], capture_output=True, timeout=60, check=False)
    return run.returncode, run.stdout.decode()


def counts(lines):
    """What a check prints of these lines where all is right."""
    events = sum(line.startswith(b">") for line in lines)
    outcomes = sum(line.startswith(b"<") for line in lines)
    return f"checked {events} events {outcomes} outcomes\n"


def other(octet):
    """Another octet that may stand in its place: a digit for a digit."""
    return {0x30: 0x31}.get(octet, 0x30) if chr(octet) in "0123456789abcdef" else octet ^ 1


def altered(lines):
    """One octet of one outcome is another one, at each outcome in turn: status 9 at that line, or 3 where the line is out of its grammar."""
    for place, line in enumerate(lines):
        if not line.startswith(b"<"):
            continue
        for at in {0, 2, 4, len(line) // 2, len(line) - 1}:
            changed = bytearray(line)
            changed[at] = other(changed[at])
            if changed[at] in b" \n":
                continue
            status, said = checked(b"\n".join([*lines[:place], bytes(changed), *lines[place + 1:], b""]))
            number = place + 1
            told(status == 9 and said == f"! line {number} differs\n" or status == 3 and said.startswith(f"! line {number} "), f"line {number}, octet {at + 1}: {status} {said!r}")


def cut(lines):
    """Cut at each octet: a recording behind the last outcome of an event, and nowhere else."""
    text = b"".join(line + b"\n" for line in lines)
    wholes, number = {}, 0
    for place, line in enumerate(lines):
        number += len(line) + 1
        if place + 1 == len(lines) or not lines[place + 1].startswith(b"<"):
            wholes[number] = lines[: place + 1]
    for length in range(len(text) + 1):
        status, said = checked(text[:length])
        if length in wholes:
            told(status == 0 and said == counts(wholes[length]), f"cut behind {length} octets: {status} {said!r}")
        elif length <= len(lines[0]):
            told(status == 3 and said == "! line 1 header\n", f"cut behind {length} octets: {status} {said!r}")
        else:
            last = text[:length].count(b"\n") + 1
            wanted = "missing" if text[:length].endswith(b"\n") else "cut"
            told(status == 9 and said == f"! line {last} {wanted}\n", f"cut behind {length} octets: {status} {said!r}")


def left_out(lines):
    """One outcome that isn't there: the next line differs, or at the end one is missing."""
    for place, line in enumerate(lines):
        if line.startswith(b"<"):
            status, said = checked(b"".join(other_line + b"\n" for other_line in lines[:place] + lines[place + 1:]))
            wanted = "missing" if place + 1 == len(lines) else "differs"
            number = place + 1
            # Where the same line stands behind it, that one is missed.
            same = place + 1 < len(lines) and lines[place + 1] == line
            told(status == 9 and (same or said == f"! line {number} {wanted}\n"), f"without line {number}: {status} {said!r}")


def served():
    """A recording of three connections, as `serve` printed it."""
    port = free_port()
    recording = os.path.join(work, "recording")
    with open(recording, "wb") as text:
        server = subprocess.Popen([program, "serve", keys, f"127.0.0.1:{port}", "9", "-"], stdout=text, stderr=subprocess.DEVNULL)
    told(is_listened_at(port), "the server listens")
    calls = [subprocess.Popen([program, "call", keys, f"127.0.0.1:{port}", "5", "9", "100000"], stdout=subprocess.PIPE, stderr=subprocess.DEVNULL) for _ in range(3)]
    for call in calls:
        text = call.communicate(timeout=60)[0]
        told(call.returncode == 0 and is_train(events_of(text.decode(), "1")), "a train is served")
        told(checked(text) == (0, counts(text.splitlines())), "the recording of a call is checked")
    server.terminate()
    server.wait(timeout=60)
    with open(recording, "rb") as text:
        octets = text.read()
    # The server was ended amid a wait at the worst: what it wrote last is whole events.
    told(sum(b" answer " in line for line in octets.splitlines()) == 3, "three connections were recorded")
    status, said = checked(octets)
    told((status, said) == (0, counts(octets.splitlines())), f"the recording of three connections: {status} {said!r}")


work = tempfile.mkdtemp()
keys, trace = os.path.join(work, "keys"), os.path.join(work, "trace")
with open(keys, "w") as file:
    file.write(KEYS)
with open("tests/rows/check-good/trace", "rb") as file:
    short = [line for line in file.read().splitlines() if line and not line.startswith(b"#")]
with open("examples/recorded-session.trace", "rb") as file:
    session = [line for line in file.read().splitlines() if line and not line.startswith(b"#")]
for recorded in (short, session):
    status, said = checked(b"".join(line + b"\n" for line in recorded))
    told(status == 0 and said == counts(recorded), f"a whole recording: {status} {said!r}")
    altered(recorded)
    cut(recorded)
    left_out(recorded)
served()
shutil.rmtree(work)
print(f"{passed} passed, {failed} failed")
sys.exit(1 if failed or not passed else 0)
