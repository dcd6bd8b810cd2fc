"""For application.py beside it: the built program with an application at its socket, trains of other make at its port, and what each of them hears."""
import collections
import hashlib
import os
import re
import select
import signal
import socket
import subprocess
import time

from serving import free_port
from train import Train

RBC = 9
ENGINES = range(1, 61)
MOST_FOR_APPLICATION = 262_144


def kmac_of(engine):
    return hashlib.sha256(b"%d" % engine).hexdigest()[:48]


def keys_text(engines):
    return "version = 1\n" + "".join(f'\n[[key]]\nengine = {engine}\nrbc = {RBC}\nkmac = "{kmac_of(engine)}"\n' for engine in engines)


class Rider:
    """A train at a port: it says its texts in their order, as far as its credit goes, and keeps what it hears."""

    def __init__(self, port, engine, *texts):
        self.line = socket.create_connection(("127.0.0.1", port), timeout=20)
        self.line.setblocking(False)
        self.train, self.engine = Train(engine, RBC, kmac_of(engine), os.urandom), engine
        self.out, self.untold, self.said, self.ended = bytearray(self.train.start()), collections.deque(texts), [], False

    def say(self, *texts):
        self.untold.extend(texts)

    @property
    def reads(self):
        return not self.ended

    @property
    def writes(self):
        return bool(self.out)

    @property
    def state(self):
        return self.train.state

    @property
    def heard(self):
        return self.train.heard

    def has_credit(self):
        return self.state == "connected" and self.train.segments_sent % 128 != self.train.edge % 128

    def move(self, readable, writable):
        try:
            if readable:
                octets = self.line.recv(65536)
                self.ended = not octets
                self.out += self.train.receive(octets)
            if writable:
                del self.out[:self.line.send(self.out)]
        except OSError:
            self.ended = True
        if self.ended:
            self.out.clear()
            self.line.close()
            return
        while self.untold and self.has_credit() and len(self.out) < 4096:
            self.said.append(self.untold.popleft())
            self.out += self.train.say(self.said[-1])

    def release(self):
        self.out += self.train.release()


class Application:
    """One attachment of an application."""

    def __init__(self, path):
        self.line = socket.socket(socket.AF_UNIX)
        self.line.settimeout(20)
        self.line.connect(path)
        self.line.setblocking(False)
        self.lines, self.held, self.out, self.reading, self.ended = [], b"", bytearray(), True, False

    def say(self, *texts):
        for text in texts:
            self.out += text.encode() + b"\n"

    @property
    def reads(self):
        return self.reading and not self.ended

    @property
    def writes(self):
        return bool(self.out)

    def move(self, readable, writable):
        try:
            if readable:
                octets = self.line.recv(65536)
                self.ended = not octets
                *lines, self.held = (self.held + octets).split(b"\n")
                self.lines += [line.decode() for line in lines]
            if writable:
                del self.out[:self.line.send(self.out)]
        except OSError:
            self.ended = True
        if self.ended:
            self.out.clear()
            self.line.close()

    def kill(self):
        """It dies, whatever it hasn't read."""
        self.ended = True
        self.line.close()

    def told(self, kind):
        """The words behind this first one, of each line that it begins."""
        return [line.split(" ")[1:] for line in self.lines if line.startswith(kind + " ")]

    def messages(self, conn):
        """What was told of this connection's messages."""
        return [bytes.fromhex(words[1]) for words in self.told("message") if words[0] == str(conn)]


def run(done, *parts, seconds=60):
    """Moves trains and applications on until that is so."""
    end = time.monotonic() + seconds
    while not done():
        assert time.monotonic() < end, f"waited for {seconds} s"
        lines = {part.line: part for part in parts if not part.ended}
        readable, writable, _ = select.select(
            [line for line, part in lines.items() if part.reads], [line for line, part in lines.items() if part.writes], [], 0.05
        )
        for line, part in lines.items():
            part.move(line in readable, line in writable)


def pause(seconds, *parts):
    """Moves them on for so long."""
    end = time.monotonic() + seconds
    run(lambda: time.monotonic() > end, *parts, seconds=seconds + 20)


class Serving:
    """`serve` with the socket of an application, in a folder of its own."""

    def __init__(self, program, folder, engines=ENGINES, path=None):
        self.program, self.folder, self.name = program, folder, os.path.basename(folder)
        os.makedirs(folder, exist_ok=True)
        self.keys, self.recording, self.told = (os.path.join(folder, name) for name in ("keys", "recording", "told"))
        self.path = path or os.path.join(folder, "application")
        self.write_keys(keys_text(engines))
        with open(self.recording, "wb") as out, open(self.told, "wb") as told:
            words = [program, "serve", self.keys, "127.0.0.1:0", str(RBC), "-", self.path]
            self.process = subprocess.Popen(words, stdin=subprocess.DEVNULL, stdout=out, stderr=told)
        end = time.monotonic() + 30
        while not (listening := re.search(r"^euroradio: listening at 127\.0\.0\.1:(\d+)$", self.tells(), re.M)):
            assert self.process.poll() is None and time.monotonic() < end, f"it doesn't listen: {self.tells()}"
            time.sleep(0.02)
        self.port = int(listening[1])

    def __enter__(self):
        return self

    def __exit__(self, *_):
        self.process.kill()
        self.process.wait()

    def write_keys(self, text):
        with open(os.open(self.keys, os.O_WRONLY | os.O_CREAT | os.O_TRUNC, 0o600), "w") as file:
            file.write(text)

    def tells(self):
        with open(self.told, encoding="utf-8", errors="replace") as told:
            return told.read()

    def kept(self):
        """KiB that the process has."""
        with open(f"/proc/{self.process.pid}/status") as status:
            return next(int(line.split()[1]) for line in status if line.startswith("VmRSS"))

    def connected(self, application, *riders):
        """Their connections' numbers, once the application was told each of them, and each heard it too."""
        wanted = {str(rider.engine) for rider in riders}
        told = lambda: {peer for _, peer in application.told("connected")}
        run(lambda: wanted <= told() and all(rider.state == "connected" for rider in riders), application, *riders)
        numbers = {int(peer): int(conn) for conn, peer in application.told("connected")}
        return [numbers[rider.engine] for rider in riders]

    def ends(self):
        """The status with which it ends by itself."""
        return self.process.wait(timeout=60)

    def checked(self):
        """It is ended, if it isn't, and its recording is what a replay prints."""
        self.process.send_signal(signal.SIGTERM)
        self.process.wait(timeout=60)
        done = subprocess.run([self.program, "check", self.keys, self.recording], capture_output=True, text=True, timeout=300, check=False)
        assert (done.returncode, done.stdout.split(" ")[0]) == (0, "checked"), f"the recording: {done}"


class Reporter:
    """A train that says its reports, four ahead of their answers, and wants to hear a greeting and then each answer, once and in order, wherever it calls."""

    def __init__(self, number):
        self.number, self.before, self.goal, self.rider = number, 0, 0, None

    def call(self, serve):
        """It calls there: what wasn't answered before is said again."""
        self.before = self.answered
        self.rider, self.said = Rider(serve.port, self.number), self.before

    @property
    def answered(self):
        return self.before + max(0, len(self.rider.heard) - 1) if self.rider else self.before

    def report(self):
        while self.said < min(self.goal, self.answered + 4):
            self.said += 1
            self.rider.say(b"position-report-%04d-%04d" % (self.number, self.said))

    def is_answered_in_order(self):
        heard = [b"welcome-train-%d" % self.number] + [b"movement-authority-%04d-%04d" % (self.number, n) for n in range(self.before + 1, self.goal + 1)]
        return self.rider.heard == heard[:len(self.rider.heard)]


def trains_over_a_broker(program, programs):
    """Sixty trains at three sites hear each answer once, in order: a site is killed with its bridge and comes back, the broker is stopped, all are drained."""
    programs.start_broker()
    programs.start_centre()
    sites = [Serving(program, os.path.join(programs.folder, f"site-{number}")) for number in (1, 2, 3)]
    try:
        for site in sites:
            programs.start_bridge(site)
        trains = [Reporter(number) for number in range(1, 61)]
        for train in trains:
            train.call(sites[train.number % 3])

        def until(goal, answers, seconds=120):
            for train in trains:
                train.goal = goal

            def done():
                for train in trains:
                    train.report()
                return sum(train.answered for train in trains) >= answers * len(trains)

            run(done, *(train.rider for train in trains), seconds=seconds)
            assert all(train.is_answered_in_order() for train in trains), "an answer is told twice, or out of order"

        until(20, 13)
        programs.stop("site-3", subprocess.Popen.kill)
        sites[2].process.kill()
        sites[2].process.wait()
        sites[2] = Serving(program, os.path.join(programs.folder, "site-3"), path=os.path.join(programs.folder, "site-3", "application"))
        for train in trains[1::3]:
            train.call(sites[train.number % 2])
        until(20, 20)
        programs.start_bridge(sites[2])
        for train in trains[::3]:
            train.rider.release()
        run(lambda: all(train.rider.ended for train in trains[::3]), *(train.rider for train in trains))
        for train in trains[::3]:
            train.call(sites[2])
        until(40, 33)
        programs.stop("broker")
        pause(2, *(train.rider for train in trains))
        programs.start_broker()
        until(60, 60)
        for site in sites:
            programs.publish(f"euroradio/{site.name}/asked", "drain")
        run(lambda: all(train.rider.ended for train in trains), *(train.rider for train in trains))
        for site in sites:
            assert site.ends() == 0
            site.checked()
    finally:
        for site in sites:
            site.process.kill()
            site.process.wait()


class Cases:
    """A table of days: each method is one, in a folder of its own."""

    def __init__(self, program, work):
        self.program, self.work = program, work

    def all(self):
        return [getattr(self, name) for name in vars(Cases) if name.startswith("day_")]

    def serving(self, name, **more):
        return Serving(self.program, os.path.join(self.work, f"day-{name}"), **more)

    def day_of_one_train(self):
        """It is told of a train, hears it, answers, counts, and releases it; who asks of a connection that is over hears so."""
        with self.serving("one") as serve:
            application = Application(serve.path)
            rider = Rider(serve.port, 5, b"report")
            run(lambda: application.told("message"), application, rider)
            assert application.lines == ["connected 1 5", f"message 1 {b'report'.hex()}"], application.lines
            application.say(f"send 1 {b'authority'.hex()}", "counts", "keys")
            run(lambda: rider.heard and application.told("keys"), application, rider)
            assert rider.heard == [b"authority"] and application.lines[2:] == ["counts 1 1 1 1", f"keys {len(ENGINES)}"], application.lines
            application.say("release 1 7")
            run(lambda: rider.ended, application, rider)
            application.say("send 1 41", "release 1 0", "counts")
            run(lambda: application.told("counts")[1:], application)
            assert application.lines[4:] == ["released 1 0 7 local", "gone 1", "gone 1", "counts 0 1 1 1"], application.lines
            rider = Rider(serve.port, 6)
            serve.connected(application, rider)
            rider.release()
            run(lambda: application.told("released")[1:], application, rider)
            assert application.lines[-1] == "released 2 0 0 peer", application.lines
            serve.checked()

    def day_of_faulty_lines(self):
        """Each line out of the grammar is told by its number and its first fault, and is skipped."""
        table = (
            ("sned 1 41", "word"), ("", "word"), ("send", "count"), ("send 1", "count"), ("send 1 41 41", "count"), ("send x 41", "number"), ("send 1 4", "hex"),
            ("send 1 x", "hex"), ("send 18446744073709551616 41", "number"), ("release 1 256", "value"), ("release 1 -", "number"), ("release 1", "count"),
            ("drain 1", "count"), ("keys 1", "count"), ("counts 1", "count"), ("COUNTS", "word"), ("send\t1 41", "word"), ("counts\r", "word"), ("x" * 4097, "long"),
            ("send 1 " + "41" * 2048, "long"), ("# counts", "word"), ("drain\0", "word"),
        )
        with self.serving("faulty") as serve:
            application = Application(serve.path)
            rider = Rider(serve.port, 5)
            serve.connected(application, rider)
            for number, (text, why) in enumerate(table):
                application.say(text, "counts")
                run(lambda: len(application.told("counts")) > number, application, rider)
                assert application.lines[-2:] == [f"fault {2 * number + 1} {why}", "counts 1 1 1 0"], f"{text[:40]!r}: {application.lines[-2:]}"
            application.say("send 1 -", "send 7 41", "  send   1   41  ")
            run(lambda: rider.heard and application.told("gone"), application, rider)
            assert rider.heard == [b"A"] and application.lines[-2:] == ["refused 1 - length 0", "gone 7"], application.lines[-3:]
            serve.checked()

    def day_of_a_hostile_application(self):
        """Whatever it writes, and whoever comes beside it, ends neither the loop nor a session, and each line is told of."""
        with self.serving("hostile") as serve:
            application, rider = Application(serve.path), Rider(serve.port, 5)
            parts = application, rider
            serve.connected(application, rider)
            binary = os.urandom(200_000)
            application.out += binary + b"\n"
            faults = binary.count(b"\n") + 1
            run(lambda: len(application.told("fault")) == faults, *parts)
            assert [int(number) for number, _ in application.told("fault")] == list(range(1, faults + 1))
            application.out += b"x" * 1_000_000
            run(lambda: len(application.told("fault")) == faults + 1, *parts)
            application.out += b"x" * 1_000_000 + b"\ncounts\n"
            run(lambda: application.told("counts"), *parts)
            assert application.lines[-2:] == [f"fault {faults + 1} long", "counts 1 1 1 0"], application.lines[-2:]
            application.say(*["send 999 41"] * 10_000)
            run(lambda: len(application.told("gone")) == 10_000, *parts)
            others = [Application(serve.path) for _ in range(20)]
            run(lambda: all(other.ended for other in others), *parts, *others)
            assert not any(other.lines for other in others)
            # It writes and doesn't read: it waits, and then each line is answered.
            application.reading, lines = False, len(application.lines)
            application.say(*["counts"] * 150_000)
            pause(2, *parts)
            assert application.out, "lines are read though too much waits"
            application.reading = True
            run(lambda: application.lines[-1].startswith("counts") and len(application.lines) == lines + 150_000, *parts)
            application.say(f"send 1 {b'on'.hex()}")
            rider.say(b"still here")
            run(lambda: rider.heard and application.told("message"), *parts)
            assert (rider.heard, application.messages(1)) == ([b"on"], [b"still here"])
            # It ends in the midst of a line, of which the next one hears nothing.
            application.out += b"send 1 4"
            run(lambda: not application.out, *parts)
            application.kill()
            pause(0.2, rider)
            application = Application(serve.path)
            application.say("1", "counts")
            run(lambda: application.told("counts"), application, rider)
            assert application.lines == ["connected 1 5", "fault 1 word", "counts 1 1 1 1"] and rider.state == "connected", application.lines
            serve.checked()

    def day_of_as_many_as_can_be(self):
        """256 trains at once, each heard and answered; a further one is turned away, and has a place once one leaves."""
        with self.serving("full") as serve:
            application = Application(serve.path)
            riders = [Rider(serve.port, 1 + number % len(ENGINES), b"%d" % number) for number in range(256)]
            run(lambda: len(application.told("message")) == 256, application, *riders)
            late = Rider(serve.port, 5)
            run(lambda: late.ended, application, late, *riders)
            application.say(*(f"send {conn} {text}" for conn, text in application.told("message")))
            run(lambda: all(rider.heard for rider in riders), application, *riders)
            assert all(rider.heard == rider.said for rider in riders)
            riders[100].release()
            run(lambda: riders[100].ended, application, *riders)
            late = Rider(serve.port, 6)
            run(lambda: late.state == "connected", application, late, *riders)
            application.say("drain")
            run(lambda: application.ended, application, late, *riders)
            assert serve.ends() == 0
            serve.checked()

    def day_without_an_application(self):
        """Trains are connected and released while none is there; what they said waits, and is told behind who is connected."""
        with self.serving("without") as serve:
            riders = [Rider(serve.port, engine, *(b"%d-%d" % (engine, n) for n in range(3))) for engine in (5, 6, 7)]
            run(lambda: not any(rider.untold or rider.out for rider in riders) and all(rider.said for rider in riders), *riders)
            riders[1].release()
            pause(0.5, *riders)
            application = Application(serve.path)
            run(lambda: len(application.told("message")) == 9, application, *riders)
            numbers = {int(peer): int(conn) for conn, peer in application.told("connected")}
            assert set(numbers) == {5, 7} and [int(line.split()[1]) for line in application.lines[:2]] == sorted(numbers.values()), application.lines
            numbers[6] = 6 - sum(numbers.values())
            assert all(application.messages(conn) == [b"%d-%d" % (engine, n) for n in range(3)] for engine, conn in numbers.items()), application.lines
            serve.checked()

    def day_of_an_application_that_dies(self):
        """It is killed again and again and comes back; twenty trains keep their sessions, and what each said is told at most once, in order."""
        with self.serving("dies") as serve:
            riders = [Rider(serve.port, engine) for engine in range(1, 21)]
            run(lambda: all(rider.state == "connected" for rider in riders), *riders)
            told = collections.defaultdict(list)
            for times in range(5):
                application = Application(serve.path)
                numbers = serve.connected(application, *riders)
                assert [int(line.split()[1]) for line in application.lines[:20]] == sorted(numbers), "who is connected is told first, numbers rising"
                for rider in riders:
                    rider.say(*(b"%d-%d" % (times, n) for n in range(5)))
                run(lambda: len(application.told("message")) >= 10, application, *riders)
                if times < 4:
                    application.kill()
                    pause(0.3, *riders)
                else:
                    last = [b"4-%d" % n for n in range(5)]
                    run(lambda: all(application.messages(conn)[-5:] == last for conn in numbers), application, *riders)
                for rider, conn in zip(riders, numbers):
                    told[rider.engine] += application.messages(conn)
            for rider in riders:
                rest = iter(rider.said)
                assert all(text in rest for text in told[rider.engine]), f"told twice, or out of order: {told[rider.engine]}"
                assert rider.state == "connected"
            assert "released" not in open(serve.recording).read()
            serve.checked()

    def day_of_a_slow_application(self, seconds=10):
        """It stops reading: trains wait, none is lost, another is let in, memory stays; and once it reads each message is told, once and in order."""
        with self.serving("slow") as serve:
            application = Application(serve.path)
            texts = [b"%04d" % n + b"." * 100 for n in range(150)]
            riders = [Rider(serve.port, engine) for engine in range(1, 21)]
            numbers = serve.connected(application, *riders)
            application.reading = False
            for rider in riders:
                rider.say(*texts)
            said = -1
            while said < (now := sum(len(rider.said) for rider in riders)):
                said = now
                pause(1, *riders)
            before = serve.kept()
            pause(seconds / 2, *riders)
            late = Rider(serve.port, 30)
            run(lambda: late.state == "connected", late, *riders)
            pause(seconds / 2, late, *riders)
            grown = serve.kept() - before
            assert said == sum(len(rider.said) for rider in riders) < 20 * len(texts), "more is taken from trains than has room"
            assert grown < 1024, f"{grown} KiB more"
            application.reading = True
            run(lambda: len(application.told("message")) == 20 * len(texts), application, late, *riders, seconds=120)
            assert all(application.messages(conn) == texts for conn in numbers)
            assert all(rider.state == "connected" for rider in riders)
            serve.checked()

    def day_of_a_silent_train(self):
        """Who acknowledges nothing any more hears the acknowledgement of its message again each T1, and is let go behind the last of N2."""
        with self.serving("silent") as serve:
            application = Application(serve.path)
            rider = Rider(serve.port, 5)
            serve.connected(application, rider)
            pause(2, application, rider)
            rider.line.setblocking(True)
            rider.line.sendall(rider.train.say(b"report"))
            began = time.monotonic()
            run(lambda: application.told("released"), application, seconds=30)
            lasted = time.monotonic() - began
            assert application.lines[-1] == "released 1 1 2 local" and 5 < lasted < 15, f"{application.lines[-1]} after {lasted:.1f} s"
            serve.checked()

    def day_of_a_train_that_reads_late(self, count=33_000):
        """What has no room at a peer that doesn't read waits for it, and is given once there is room."""
        with self.serving("late") as serve, socket.socket() as line:
            line.setsockopt(socket.SOL_SOCKET, socket.SO_RCVBUF, 4096)
            line.settimeout(20)
            line.connect(("127.0.0.1", serve.port))
            line.sendall(bytes.fromhex("7e013febdf7e") * count)
            time.sleep(2)
            came = b""
            while len(came) < 6 * count:
                octets = line.recv(65536)
                assert octets, f"ended behind {len(came)} octets"
                came += octets
            assert came == bytes.fromhex("7e017383577e") * count, came[:20].hex()
            serve.checked()

    def day_of_many_messages(self, count=2_000):
        """So many messages each way, as quickly as credit and room let: each arrives, once."""
        with self.serving("many") as serve:
            application, rider = Application(serve.path), Rider(serve.port, 5)
            serve.connected(application, rider)
            up, down = [b"up-%d" % n for n in range(count)], [b"down-%d" % n for n in range(count)]
            rider.say(*up)
            waiting, refused, due = collections.deque(down), 0, 0

            def said_again():
                """At the most 16 each fortieth of a second; those that were refused come first."""
                nonlocal refused, due
                again = application.told("refused")
                assert all(words[2:] == ["full", "16"] for words in again[refused:])
                waiting.extendleft(bytes.fromhex(words[1]) for words in reversed(again[refused:]))
                refused = len(again)
                if time.monotonic() > due:
                    due = time.monotonic() + 0.025
                    application.say(*(f"send 1 {waiting.popleft().hex()}" for _ in range(min(16, len(waiting)))))
                return len(rider.heard) == count and len(application.messages(1)) == count

            run(said_again, application, rider, seconds=300)
            assert application.messages(1) == up and sorted(rider.heard) == sorted(down)
            serve.checked()

    def day_that_is_drained(self):
        """At `drain` each train is released and none comes any more; the loop ends with status 0, and its socket is gone."""
        with self.serving("drained") as serve:
            application = Application(serve.path)
            riders = [Rider(serve.port, engine) for engine in range(1, 6)]
            numbers = serve.connected(application, *riders)
            riders[0].release()
            run(lambda: application.told("released"), application, *riders)
            application.say("drain")
            run(lambda: application.ended and all(rider.ended for rider in riders), application, *riders)
            assert serve.ends() == 0, serve.tells()
            assert sorted(application.told("released")[1:]) == sorted([str(conn), "0", "0", "local"] for conn in numbers[1:]), application.lines
            assert not os.path.exists(serve.path), "its socket is left"
            serve.checked()

    def day_of_new_keys(self):
        """A key file that was written anew holds for set-ups from `keys` on; one that is refused or isn't there changes nothing, and says why."""
        with self.serving("keys", engines=[5]) as serve:
            application, first = Application(serve.path), Rider(serve.port, 5)
            serve.connected(application, first)
            strange = Rider(serve.port, 6)
            run(lambda: strange.ended, application, strange)
            for text, answer in (
                ("version = 1\n[[key]\n", "keys document"), (keys_text([5, 5]), "keys twice 1 2"), ("version = 3\n", "keys version 3"),
                (keys_text([5]).replace("engine = 5", "engine = -1"), "keys number 1"), (None, "keys fetch"),
            ):
                os.remove(serve.keys) if text is None else serve.write_keys(text)
                application.lines.clear()
                application.say("keys")
                # The line of the rider before may come behind that rider's end, so between the two.
                run(lambda: any(line.startswith("keys") for line in application.lines), application, first)
                assert [line for line in application.lines if line.startswith("keys")] == [answer], application.lines
                rider = Rider(serve.port, 5)
                serve.connected(application, rider)
                rider.release()
                run(lambda: rider.ended, application, first, rider)
            serve.write_keys(keys_text([5, 6]))
            application.say("keys")
            run(lambda: "keys 2" in application.lines, application, first)
            second = Rider(serve.port, 6)
            serve.connected(application, second)
            assert f"euroradio: an application may come to {serve.path}\n" in serve.tells(), serve.tells()
            assert first.state == second.state == "connected"
            serve.process.terminate()
            serve.process.wait()
            # The recording has a set-up that failed for want of the key that holds now.
            with open(serve.recording) as file:
                text = file.read()
            refused = re.search(r"^< (\d+) released 3 1 local$", text, re.M)[1]
            kept = [line for line in text.splitlines(True) if line.split(" ")[1 if line.startswith("<") else 2:][:1] != [refused] or line.startswith("trace")]
            with open(serve.recording, "w") as file:
                file.write("".join(kept))
            serve.checked()

    def day_of_its_socket(self):
        """It is for its owner alone; one that is left is replaced; another file, one that somebody listens at, and no name are a failed listen."""
        folder = os.path.join(self.work, "day-socket")
        path = os.path.join(folder, "application")
        with self.serving("socket") as serve:
            assert os.stat(path).st_mode & 0o777 == 0o600, oct(os.stat(path).st_mode)
            self.refused(folder, path)
            Application(path).kill()
            serve.process.kill()
            serve.process.wait()
        assert os.path.exists(path), "a kill leaves the socket"
        with self.serving("socket") as serve:
            application = Application(path)
            application.say("drain")
            run(lambda: application.ended, application)
            assert serve.ends() == 0
        with open(path, "w") as file:
            file.write("precious")
        self.refused(folder, path)
        with open(path) as file:
            assert file.read() == "precious"
        for name in (folder, os.path.join(folder, "none", "application"), os.path.join(folder, "x" * 108), ""):
            self.refused(folder, name)

    def refused(self, folder, path):
        words = [self.program, "serve", os.path.join(folder, "keys"), "127.0.0.1:0", str(RBC), "-", path]
        done = subprocess.run(words, stdin=subprocess.DEVNULL, capture_output=True, text=True, timeout=30, check=False)
        assert (done.returncode, done.stdout) == (6, "! wires\n"), f"{path}: {done}"
        assert not path or path in done.stderr, f"{path}: {done.stderr}"

    def day_of_the_examples(self):
        """`serve` with the centre and `call` with the train of examples/application: each report is answered, both are released and end with status 0."""
        with self.serving("examples") as serve:
            centre = self.example("centre", serve.path)
            keys, recording, path = serve.keys, os.path.join(serve.folder, "call.recording"), os.path.join(serve.folder, "train")
            with open(recording, "wb") as out:
                call = subprocess.Popen([self.program, "call", keys, f"127.0.0.1:{serve.port}", "5", str(RBC), "-", path], stdout=out, stderr=subprocess.PIPE, text=True)
            train = self.example("train", path, "20")
            try:
                assert train.wait(timeout=60) == 0
                assert call.wait(timeout=60) == 0 and "released, 0.0 local" in call.stderr.read()
                centre.send_signal(signal.SIGTERM)
                assert centre.wait(timeout=60) == 0 and serve.ends() == 0
            finally:
                for program in (centre, train, call):
                    program.kill()
                    program.wait()
            for text in (recording, serve.recording):
                done = subprocess.run([self.program, "check", keys, text], capture_output=True, text=True, timeout=60, check=False)
                assert done.returncode == 0, done

    def example(self, name, *words):
        return subprocess.Popen(["python3", "-B", f"examples/application/{name}.py", *words], stdin=subprocess.DEVNULL, stdout=subprocess.DEVNULL)

    def day_of_a_call(self):
        """A call whose application comes late: what its peer said waits; whom the application has released a loop ends behind; who calls nobody is released."""
        with self.serving("call") as serve:
            path, recording = os.path.join(serve.folder, "train"), os.path.join(serve.folder, "call.recording")
            with open(recording, "wb") as out:
                call = subprocess.Popen([self.program, "call", serve.keys, f"127.0.0.1:{serve.port}", "5", str(RBC), "-", path], stdout=out, stderr=subprocess.DEVNULL)
            try:
                centre = Application(serve.path)
                run(lambda: centre.told("connected"), centre)
                centre.say(f"send 1 {b'early'.hex()}")
                pause(0.5, centre)
                train = Application(path)
                run(lambda: train.told("message"), train, centre)
                assert train.lines == ["connected 1 9", f"message 1 {b'early'.hex()}"], train.lines
                train.say("release 1 9")
                run(lambda: train.ended and centre.told("released"), train, centre)
                assert train.lines[2:] == ["released 1 0 9 local"] and call.wait(timeout=60) == 0, train.lines
            finally:
                call.kill()
                call.wait()
            done = subprocess.run([self.program, "call", serve.keys, f"127.0.0.1:{free_port()}", "5", str(RBC), "-", path], capture_output=True, text=True, timeout=60, check=False)
            assert done.returncode == 0 and "released 1 6 local" in done.stdout, done
            serve.checked()
