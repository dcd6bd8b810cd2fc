"""tools/tap: taps of texts and of captures of them, and captures that are cut or altered."""
import random
import subprocess
import sys

from capture_tests import SABM, UA

SESSION = "examples/recorded-session.trace"
HEADER = "trace 1 7 15 128 1000 5 40000\n"


def run_of(tool, data, *words):
    """What a tool prints, what it tells, and its status."""
    data = data if isinstance(data, bytes) else data.encode("latin-1")
    run = subprocess.run([sys.executable, f"tools/{tool}", *words], input=data, capture_output=True, check=False)
    return run.stdout, run.stderr.decode().split("\n")[:-1], run.returncode


def tapped(text, *words):
    """The taps of a text and of the capture that tools/pcap makes of it, the octets of a side in one piece each, what is told, and the status."""
    return joined(run_of("tap", text, *words)), joined(run_of("tap", run_of("pcap", text)[0], *words))


def joined(run):
    """The same run with its tap as (the lines that open links, the octets of each side)."""
    opened, octets = [], {}
    for words in (line.split(" ") for line in run[0].decode().split("\n")[1:-1]):
        if words[0] == "link":
            opened.append(" ".join(words))
        else:
            octets[words[1], words[2]] = octets.get((words[1], words[2]), "") + words[3]
    return (opened, octets), *run[1:]


def of_captures(judge):
    """A capture of a recording tells its ETCS numbers and the moment for its keys as the recording does."""
    with open(SESSION, encoding="latin-1") as file:
        lines = file.read().split("\n")
    whole, again = tapped("\n".join(lines))
    judge.same("a session and its capture", (again, whole[0][0], whole[1:]), (whole, ["link 1 5 9 0", "link 2 5 9 0"], ([], 0)))
    # The side that a serve records alone, whose engine is told as it is connected; a connection that was turned away has no tap.
    served = "\n".join(line for line in lines if line.split()[:2] != ["<", "1"] and line.split()[2:3] != ["1"])
    served = served.replace("> 0 2 ", "> 70000 2 ") + "\n> 70001 3 full 256\n"
    whole, again = tapped(served)
    judge.same("a recording of serve and its capture", (again, whole[0][0], whole[1:]), (whole, ["link 1 5 9 70000"], ([], 0)))
    # An end that answers looks its key up when AU1 comes, in the engine's first I frame: here with the third event.
    events = iter(range(70000, 80000))
    later = "\n".join(line.replace("> 70000 2 ", f"> {next(events)} 2 ") if line.startswith("> 70000 2 ") else line for line in served.split("\n"))
    whole, again = tapped(later)
    judge.same("whose key is looked up later", (again, whole[0][0]), (whole, ["link 1 5 9 70002"]))
    text = f"{HEADER}> 8 1 answer 9 1122334455667788\n> 8 1 octets {SABM}\n< 1 octets {UA}\n"
    untold = ([], {}), ["connection 1 doesn't tell its ETCS numbers: --engine and --rbc are wanted"], 1
    judge.same("an engine that wasn't connected", tapped(text), (untold, untold))
    named = (["link 1 5 9 8"], {("1", "e"): SABM, ("1", "r"): UA}), [], 0
    judge.same("and that is named", tapped(text, "--engine", "5"), (named, named))


def faulty_captures(judge):
    """A capture that is cut anywhere, or has altered octets: what can be read is taken, and what can't is told in a line each."""
    with open(SESSION, "rb") as file:
        capture = run_of("pcap", file.read())[0]
    judge.same("a capture that is cut", run_of("tap", capture[:-9])[1:], (
        [f"a block that isn't whole, at octet {capture.rindex(bytes([6, 0, 0, 0]), 0, -20)}; what is behind it is left out"], 1))
    judge.same("an older one", run_of("tap", b"\xd4\xc3\xb2\xa1" + bytes(20)), (
        b"tap 1\n", ["interface 1 has no frames of a link; --tcp PORT takes those of TCP", "no link or connection"], 1))
    # A frame whose octets were altered in the capture, and one that was cut, aren't made whole again.
    place = capture.index(bytes.fromhex("0100010009ef"))
    altered = [capture[:at] + bytes([capture[at] ^ 1 << bit]) + capture[at + 1:] for at in (place, place + 9) for bit in range(8)]
    judge.same("a packet that is altered", [run_of("tap", data)[1:] for data in altered], [
        (["packet 5: altered, its octets aren't those of its CRC-32; it is left out"], 1)] * len(altered))
    cut = capture[:place - 4] + (999).to_bytes(4, "little") + capture[place:]
    judge.same("a packet that is cut", run_of("tap", cut)[1:], (["packet 5: cut, 27 of its 999 octets are there; it is left out"], 1))
    section = capture[:int.from_bytes(capture[4:8], "little")]
    twice = run_of("tap", capture + capture[len(section):])[2], run_of("tap", capture + capture, "1")[2]
    judge.same("a section behind another", twice, (0, 0))
    draw, faults = random.Random(11), []
    for place in [draw.randrange(len(capture)) for _ in range(5)]:
        altered = bytearray(capture)
        altered[place] ^= 1 << draw.randrange(8)
        for data in (capture[:place], bytes(altered)):
            _, told, status = run_of("tap", data)
            if status not in (0, 1) or any("fault of this tool" in line or line.startswith("Traceback") for line in told):
                faults.append((place, told, status))
    judge.none("captures that are cut or altered", faults)


def run(judge):
    of_captures(judge)
    faulty_captures(judge)
