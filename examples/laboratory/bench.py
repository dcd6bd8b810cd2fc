"""The bench: it puts a relay with a script between the device under test and a peer, lets the peer play, and keeps what the relay printed.

A device that answers as a radio block centre is dialled by the relay; one that calls as a train finds the relay listening. The peer is this program's `call` or
`serve`, or a play of plays.py.
"""
import contextlib
import os
import re
import shlex
import socket
import subprocess
import sys
import time
from dataclasses import dataclass

HERE = os.path.dirname(os.path.abspath(__file__))
TOP = os.path.dirname(os.path.dirname(HERE))
sys.path[:0] = [os.path.join(TOP, "tools"), os.path.join(TOP, "tests")]

import peers  # noqa: E402
import plays  # noqa: E402
import relay_model  # noqa: E402
from serving import free_ports  # noqa: E402

CENTRE, TRAIN = "centre", "train"
SIDES = {CENTRE: "r", TRAIN: "e"}
OTHER = {CENTRE: TRAIN, TRAIN: CENTRE}


class Inconclusive(Exception):
    """Why nothing is known of the device."""


@dataclass(frozen=True)
class Device:
    """The device under test, and what is known of it: `address` where it answers as a centre; where it is a train, `listen`, at which the relay waits for it (port
    0: any that is free), and `trigger`, the command that makes it call `{address}`."""

    address: str
    listen: str
    trigger: str
    engine: int
    rbc: int
    kmac: bytes
    t1: int = 1000
    n2: int = 5
    window: int = 7
    echoes: bool = True


@dataclass
class Run:
    """A case that was played against the device in one of its roles: the folder with all that was kept, what the relay printed, and why nothing is known."""

    case: object
    role: str
    device: Device
    folder: str
    printed: str = ""
    inconclusive: str = ""

    def path(self, name):
        return os.path.join(self.folder, name)


class Stage:
    """What a play stands on: lines to the device, and how long it waits, in seconds."""

    def __init__(self, role, device, open_stream):
        self.role, self.device, self.echoes = role, device, device.echoes
        self.pause = min(0.4, device.t1 / 2500)
        self.patience = (device.n2 + 2) * device.t1 / 1000 + 3
        self.longest = (device.n2 + 3) * device.t1 / 1000 + 5
        self.open_stream = open_stream

    def line(self, is_slow=False, kmac=None, own=None, **habits):
        """A line to the device, of an end of the other role with these habits, its own key or number where they are told."""
        engine, rbc = self.device.engine, self.device.rbc
        role, number, other = ("e", engine, rbc) if self.role == CENTRE else ("r", rbc, engine)
        end = peers.End(role, own or number, other, kmac or self.device.kmac, **habits)
        return peers.Line(self.open_stream(), end, is_slow)


class Bench:
    """The program with the relay, the device, and the folder below which each run has its own."""

    def __init__(self, program, device, keys, folder):
        self.program, self.device, self.keys, self.folder = program, device, keys, folder

    def run(self, case, role):
        """Plays a case against the device in this role."""
        run = Run(case, role, self.device, os.path.join(self.folder, f"{case.name}-{role}"))
        os.makedirs(run.folder, exist_ok=True)
        try:
            with contextlib.ExitStack() as stack:
                _Playing(self, run, stack).play()
        except (Inconclusive, plays.Stopped) as why:
            run.inconclusive = str(why)
        except OSError as why:
            run.inconclusive = f"the bench: {why}"
        self._look_at_the_relay(run)
        return run

    def _look_at_the_relay(self, run):
        """Keeps what the relay printed; a relay that doesn't carry what its script says, or a line of the script that met no unit, tells nothing of the device."""
        with contextlib.suppress(OSError), open(run.path("relay.printed")) as file:
            run.printed = file.read()
        script = relay_model.read_script(case_script(run.case))
        printed = relay_model.Printed(script, run.printed)
        unmet = [str(line) for line in script if line not in printed.used()]
        if printed.faults:
            run.inconclusive = run.inconclusive or f"the relay: {printed.faults[0]}"
        if unmet:
            run.inconclusive = run.inconclusive or f"no unit came for the script's line `{unmet[0][:60]}`"


def case_script(case):
    return "relay 1\n" + "".join(line + "\n" for line in case.script)


class _Playing:
    """One run: its processes are ended with the stack."""

    def __init__(self, bench, run, stack):
        self.bench, self.run, self.stack, self.device = bench, run, stack, bench.device
        port, self.peer_port = free_ports(2)
        host, _, told = (self.device.listen if run.role == TRAIN else "127.0.0.1:0").rpartition(":")
        self.host, self.port = host, int(told) or port
        self.triggered = []

    @property
    def listen(self):
        return f"{self.host}:{self.port}"

    def play(self):
        if self.run.role == CENTRE:
            self._relay(self.device.address)
            if self.run.case.play is None:
                self._calls()
            else:
                self.run.case.play(Stage(CENTRE, self.device, lambda: socket.create_connection((self.host, self.port), timeout=10)))
        else:
            self._as_centre()
        self._until_closed()

    def _relay(self, dial):
        script = self.run.path("script")
        with open(script, "w") as file:
            file.write(case_script(self.run.case))
        self._start([self.bench.program, "relay", script, self.listen, dial, "-"], "relay.printed")
        if not is_listened_at(self.port):
            raise Inconclusive(f"the relay doesn't listen at {self.listen}")

    def _start(self, words, out):
        """A process whose standard output goes to a file, and which ends with the run."""
        with open(self.run.path(out), "wb") as printed, open(self.run.path(f"{out}.told"), "wb") as told:
            process = subprocess.Popen(words, stdin=subprocess.DEVNULL, stdout=printed, stderr=told)
        self.stack.callback(_ended, process)
        return process

    def _calls(self):
        """The peer is `call`, as often as the case says, at once."""
        if not self.device.echoes:
            raise Inconclusive("`call` leaves behind its echoes, and the device says none")
        stage = Stage(CENTRE, self.device, None)
        words = [self.bench.program, "call", self.bench.keys, self.listen, str(self.device.engine), str(self.device.rbc), "-"]
        calls = [self._start(words, f"call-{number}.recording") for number in range(1, self.run.case.calls + 1)]
        last = time.monotonic() + stage.longest + 5
        for call in calls:
            with contextlib.suppress(subprocess.TimeoutExpired):
                call.wait(max(0.1, last - time.monotonic()))
            if call.poll() not in (None, 0):
                raise Inconclusive(f"`call` ended with status {call.poll()}")

    def _as_centre(self):
        """The device is a train: it is made to call, and the peer behind the relay is `serve` or a play."""
        address = f"127.0.0.1:{self.peer_port}"
        if self.run.case.play is None:
            self._start([self.bench.program, "serve", self.bench.keys, address, str(self.device.rbc), "-"], "serve.recording")
            if not is_listened_at(self.peer_port):
                raise Inconclusive("the peer, `serve`, doesn't listen")
            self._relay(address)
            for _ in range(self.run.case.calls):
                self._trigger()
            self._wait_for(lambda text: text.count(" open\n") >= self.run.case.calls, "the device didn't call")
        else:
            with socket.create_server(("127.0.0.1", self.peer_port)) as listener:
                listener.settimeout(Stage(TRAIN, self.device, None).patience)
                self._relay(address)
                self.run.case.play(Stage(TRAIN, self.device, lambda: self._accepted(listener)))

    def _accepted(self, listener):
        """The stream of a device that is made to call."""
        self._trigger()
        try:
            return listener.accept()[0]
        except TimeoutError:
            raise Inconclusive("the device didn't call") from None

    def _trigger(self):
        """Makes the device call the relay. Without a command it calls by itself."""
        if self.device.trigger:
            words = shlex.split(self.device.trigger.replace("{address}", self.listen))
            self.triggered.append(self._start(words, f"device-{len(self.triggered) + 1}.printed"))

    def _printed(self):
        with open(self.run.path("relay.printed")) as file:
            return file.read()

    def _wait_for(self, holds, why, seconds=None):
        """Waits until this holds of what the relay printed."""
        last = time.monotonic() + (Stage(self.run.role, self.device, None).longest if seconds is None else seconds)
        while not holds(self._printed()):
            if time.monotonic() > last:
                raise Inconclusive(why)
            time.sleep(0.02)

    def _until_closed(self):
        """Waits for the end of each connection; one that stays open is cut with the processes."""
        with contextlib.suppress(Inconclusive):
            self._wait_for(lambda text: " open\n" in text and text.count(" closed\n") >= text.count(" open\n"), "")
        text = self._printed()
        if " open\n" not in text:
            raise Inconclusive("no connection came to the relay")
        if self.run.role == CENTRE and " end r\n" in text and not re.search(r"^> [0-9]+ [0-9]+ r ", text, re.M) and not answers(self.device.address):
            raise Inconclusive("the device doesn't answer at its address")


def answers(address):
    """Whether somebody takes a connection at this address."""
    host, _, port = address.rpartition(":")
    try:
        socket.create_connection((host, int(port)), timeout=5).close()
    except OSError:
        return False
    return True


def is_listened_at(port, seconds=10):
    """Whether somebody listens at this port of the machine, at the latest so many seconds from now. Nobody is connected to."""
    for _ in range(seconds * 50):
        for table in ("/proc/net/tcp", "/proc/net/tcp6"):
            with contextlib.suppress(OSError), open(table) as sockets:
                if any(words[1].endswith(f":{port:04X}") and words[3] == "0A" for words in map(str.split, sockets)):
                    return True
        time.sleep(0.02)
    return False


def _ended(process):
    if process.poll() is None:
        process.terminate()
        try:
            process.wait(timeout=5)
        except subprocess.TimeoutExpired:
            process.kill()
    process.wait()
