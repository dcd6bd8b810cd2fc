"""For application.sh beside it: application.py FOLDER [PROGRAM]. Fakes of the loop's side of an application's socket, and what the examples say to it, over a
broker too; and where a program is named, that program."""
import atexit
import functools
import os
import re
import signal
import socket
import subprocess
import sys
import time

sys.dont_write_bytecode = True

import beside  # noqa: E402
import sites  # noqa: E402

WORK, PROGRAM = (sys.argv[1:] + [None])[:2]
GRAMMAR = re.compile(r"(send [0-9]+ (-|([0-9a-fA-F]{2})+)|release [0-9]+ [0-9]{1,3}|drain|keys|counts)")
REPORTS = [f"position-report-{n:08}".encode().hex() for n in range(1, 4)]
AUTHORITIES = [f"movement-authority-{n:08}".encode().hex() for n in range(1, 4)]
WELCOME = b"welcome-train-5".hex()


class Loop:
    """The loop's side: it listens at a file name, and talks to one application."""

    def __init__(self, name):
        self.path = os.path.join(WORK, name)
        self.listener = socket.socket(socket.AF_UNIX)
        self.listener.bind(self.path)
        self.listener.listen()
        self.listener.settimeout(20)

    def meet(self):
        self.line = self.listener.accept()[0]
        self.line.settimeout(20)
        self.lines = self.line.makefile()

    def tell(self, text, piece=None):
        octets = text.encode() + b"\n"
        for at in range(0, len(octets), piece or len(octets)):
            self.line.sendall(octets[at:at + (piece or len(octets))])

    def hear(self):
        line = self.lines.readline()
        assert line.endswith("\n") and GRAMMAR.fullmatch(line[:-1]), f"out of the grammar: {line!r}"
        return line[:-1]

    def part(self):
        self.lines.close()
        self.line.close()


def started(example, loop, *words):
    words = [sys.executable, f"examples/application/{example}.py", loop.path, *words]
    program = subprocess.Popen(words, stdin=subprocess.PIPE, stdout=subprocess.PIPE, text=True)
    atexit.register(program.kill)
    return program


def ended(program, status=0):
    """What it printed: it ends by itself, with this status."""
    out = program.communicate(timeout=20)[0]
    assert program.returncode == status, f"status {program.returncode}"
    return out


def centre_answers():
    """It greets, answers, sends again what was refused, passes words on, and drains at SIGTERM; whatever the pieces."""
    loop = Loop("answers")
    program = started("centre", loop)
    loop.meet()
    loop.tell("connected 1 5", 1)
    assert loop.hear() == f"send 1 {WELCOME}"
    for report, authority in zip(REPORTS, AUTHORITIES):
        loop.tell(f"message 1 {report}", 3)
        assert loop.hear() == f"send 1 {authority}"
    loop.tell(f"refused 1 {AUTHORITIES[2]} full 16\nrefused 1 {AUTHORITIES[1]} notconnected")
    assert loop.hear() == f"send 1 {AUTHORITIES[2]}"
    program.stdin.write("keys\ncounts\n")
    program.stdin.flush()
    assert (loop.hear(), loop.hear()) == ("keys", "counts")
    loop.tell("keys 2\ncounts 1 1 1 3\nfault 4 word")
    program.send_signal(signal.SIGTERM)
    assert loop.hear() == "drain"
    loop.tell("released 1 0 0 local")
    loop.part()
    assert "keys 2\n" in ended(program)


def centre_comes_back():
    """Where the loop goes and comes back it attaches again, and is told who is connected."""
    loop = Loop("back")
    program = started("centre", loop)
    for round in (1, 2, 3):
        loop.meet()
        loop.tell(f"connected 1 5\nmessage 1 {REPORTS[0]}")
        assert (loop.hear(), loop.hear()) == (f"send 1 {WELCOME}", f"send 1 {AUTHORITIES[0]}")
        if round == 3:
            program.terminate()
            assert loop.hear() == "drain"
        loop.part()
    ended(program)


def centre_reads_while_it_writes():
    """A loop that reads nothing until all is told: the centre holds what it says, and each report is answered, in order."""
    loop = Loop("slow")
    program = started("centre", loop)
    loop.meet()
    count = 50_000
    for n in range(count):
        loop.tell(f"message {n} {REPORTS[0]}")
    assert [loop.hear() for _ in range(count)] == [f"send {n} {AUTHORITIES[0]}" for n in range(count)]
    program.terminate()
    assert loop.hear() == "drain"
    loop.part()
    ended(program)


def train_reports():
    """It reports, waits for each authority, and leaves."""
    loop = Loop("train")
    program = started("train", loop, "3")
    loop.meet()
    loop.tell("connected 1 9", 2)
    loop.tell(f"message 1 {WELCOME}")
    for report, authority in zip(REPORTS, AUTHORITIES):
        assert loop.hear() == f"send 1 {report}"
        loop.tell(f"message 1 {authority}", 5)
    assert loop.hear() == "release 1 0"
    loop.tell("released 1 0 0 local")
    loop.part()
    ended(program)


def train_is_released():
    """Where the peer releases before each report was answered its status is 1."""
    loop = Loop("released")
    program = started("train", loop, "2")
    loop.meet()
    loop.tell("connected 1 9")
    assert loop.hear() == f"send 1 {REPORTS[0]}"
    loop.tell("released 1 0 7 peer")
    loop.part()
    ended(program, 1)


def bridge_passes_requests(programs):
    """It attaches once a centre is there; what is asked reaches the connection it is meant for, once, or is answered `gone` or `fault`."""
    programs.start_broker()
    site = sites.Site(programs.folder, "first.site")
    all_sites = [site]
    programs.start_bridge(site)
    began = time.monotonic()
    sites.run(all_sites, lambda: time.monotonic() > began + 1)
    assert site.line is None, "it attached before a centre was there"
    programs.start_centre()
    train = sites.Train(5)
    train.goal = 1
    site.call(train)
    sites.run(all_sites, lambda: train.answered == 1)
    where = programs.printed("connected")[0][0]
    of_loop = "euroradio/first.site/asked"
    name, run, conn, peer = where.split("/")
    asked = [f"{of_loop}/{way}" for way in (f"{run}/{conn}/{peer}", f"{run}/{conn}/6", f"00000000/{conn}/{peer}", f"{run}/2/{peer}")]
    train.awaited.extend("ab")
    site.heard.clear()
    programs.publish(asked[0], "send 61 #a.1", asked[0], "send 61 #a.1", asked[1], "send 63", asked[2], "send 63", asked[3], "release 3")
    programs.publish(asked[0], "send 62\ndrain", asked[0], "send", asked[0], "drain", of_loop, "send 1 63", of_loop, "stop", of_loop + "/1", "counts")
    programs.publish(asked[0], "send 62 #b.1", of_loop, "counts", of_loop, "keys", asked[0], "release 7", of_loop, "drain")
    sites.run(all_sites, lambda: "drain" in site.heard)
    assert site.heard == ["send 1 61", "send 1 62", "counts", "keys", "release 1 7", "drain"], site.heard
    site.tell("message 1 " + REPORTS[0])
    site.tell("fault 4 word")
    sites.run(all_sites, lambda: len(programs.printed("fault")) == 7 and len(programs.printed("gone")) == 4)
    programs.publish("euroradio/centre", "gone")
    site.tell("fault 5 word")
    began = time.monotonic()
    sites.run(all_sites, lambda: time.monotonic() > began + 1)
    assert len(programs.printed("fault")) == 7, "it was read while no centre was there"
    programs.publish("euroradio/centre", "here")
    sites.run(all_sites, lambda: len(programs.printed("fault")) == 8)
    # The last is the answer to a message that waited behind the release.
    assert [row[0].split("/", 1)[1] for row in programs.printed("gone")] == [f"{run}/1/6", "00000000/1/5", f"{run}/2/5", f"{run}/1/5"]
    assert programs.printed("fault")[-2:] == [[name, "4", "word"], [name, "5", "word"]]
    assert programs.printed("counts") + programs.printed("keys") == [[name, "1", "1", "1", "0"], [name, "2"]]
    assert programs.printed("released") == [[where, "0", "7", "local"]]


def centre_repeats_and_goes_on(programs):
    """What was refused as full is said again, and what was refused otherwise isn't. What was told while no centre was there a new one answers."""
    programs.start_broker()
    site = sites.Site(programs.folder, "site")
    programs.start_bridge(site)
    programs.start_centre()
    train = sites.Train(9)
    site.call(train)
    sites.run([site], lambda: not train.awaited)
    train.awaited.append("c")
    site.tell("message 1 61\nrefused 1 61 notconnected\nrefused 1 62 released 0 0\nrefused 1 63 full 16")
    sites.run([site], lambda: not train.awaited)
    assert site.heard == [f"send 1 {b'welcome-train-9'.hex()}", "send 1 63"], site.heard
    programs.stop("centre", subprocess.Popen.kill)
    train.goal = 4
    train.report()
    sites.run([site], lambda: not site.untold)
    programs.start_centre()
    sites.run([site], lambda: not train.awaited)


def trains_over_a_broker(programs):
    """Sixty trains at three sites hear each answer once, in order: a site is killed with its bridge and comes back, a loop ends, the broker is stopped."""
    programs.start_broker()
    programs.start_centre()
    first, second, third = all_sites = [sites.Site(programs.folder, f"site-{number}") for number in (1, 2, 3)]
    for site in all_sites:
        programs.start_bridge(site)
    trains = [sites.Train(number) for number in range(1, 61)]
    for train in trains:
        all_sites[train.number % 3].call(train)

    def until(answers):
        sites.run(all_sites, lambda: sum(train.answered for train in trains) >= answers * len(trains))

    def towards(goal):
        for train in trains:
            train.goal = goal
            train.report()

    towards(10)
    until(10)
    towards(20)
    until(13)
    programs.stop("site-3", subprocess.Popen.kill)
    all_sites.remove(third)
    for train in third.end():
        all_sites[train.number % 2].call(train)
    programs.publish("euroradio/site-3/asked", "drain")
    until(20)
    towards(30)
    until(23)
    here = second.end()
    for site in (second, third):
        site.begin()
    programs.start_bridge(third)
    all_sites.append(third)
    for train in reversed(here):
        (second, third)[train.number % 2].call(train)
    until(30)
    towards(40)
    until(33)
    programs.stop("broker")
    for train in first.trains.values():
        train.ahead, train.more = 60, "." * 900
    towards(100)
    began = time.monotonic()
    sites.run(all_sites, lambda: time.monotonic() > began + 2 and len(first.untold) < 800)
    assert first.untold, "more was taken than bounded memory bears"
    programs.start_broker()
    until(100)
    for site in all_sites:
        for conn in list(site.trains):
            site.release(conn, 0, "peer")
    sites.run(all_sites, lambda: len(programs.printed("released")) == len(trains))
    assert "drain" not in third.heard, "it heard what was asked of the bridge before it"
    told = [tuple(row) for row in programs.printed("connected")]
    assert len(told) == len(set(told)) == first.calls + second.calls + third.calls


# Whoever ends this ends what it started.
signal.signal(signal.SIGTERM, lambda *_: sys.exit(1))
passed = failed = 0
tests = [centre_answers, centre_comes_back, centre_reads_while_it_writes, train_reports, train_is_released]
between = sites.found()
if between is None:
    print("skipped: the cases with a broker, since mosquitto or python3-paho-mqtt isn't installed")


def with_programs(test):
    """The test with programs that end with it, in a folder of its own."""
    @functools.wraps(test)
    def whole():
        with sites.Programs(os.path.join(WORK, test.__name__), *between) as programs:
            test(programs)
    return whole


tests += [with_programs(test) for test in (bridge_passes_requests, centre_repeats_and_goes_on, trains_over_a_broker) if between]


def real_trains_over_a_broker(programs):
    """The same with three runs of the program."""
    beside.trains_over_a_broker(PROGRAM, programs)


if PROGRAM:
    tests += beside.Cases(PROGRAM, WORK).all()
    tests += [with_programs(real_trains_over_a_broker)] * bool(between)
for test in tests:
    began = time.monotonic()
    try:
        test()
        passed += 1
    except (AssertionError, OSError, subprocess.SubprocessError) as fault:
        failed += 1
        print(f"{test.__name__}: {type(fault).__name__} {fault} after {time.monotonic() - began:.1f} s")
if not PROGRAM:
    print("skipped: the cases with the program, which was not built")
print(f"{passed} passed, {failed} failed")
sys.exit(failed > 0)
