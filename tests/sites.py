"""For application.py beside it: fakes of several loops with trains, and the programs between them: a broker, a bridge for each loop, and one centre for all."""
import collections
import os
import re
import select
import shutil
import socket
import subprocess
import sys
import time

from serving import free_port

REQUESTS = re.compile(r"(send [0-9]+ (-|([0-9a-fA-F]{2})+)|release [0-9]+ [0-9]{1,3}|drain|keys|counts)")
MOST_FOR_APPLICATION = 262_144
CONFIGURATION = """user root
listener {port} 127.0.0.1
allow_anonymous true
persistence true
persistence_location {folder}/
max_queued_messages 0
log_dest none
"""
PUBLISHING = """
import sys, paho.mqtt.publish as publish
words = iter(sys.argv[2:])
publish.multiple([(topic, text, 1, False) for topic, text in zip(words, words)], "127.0.0.1", int(sys.argv[1]))
"""


def found():
    """The broker, and a Python that has paho (Debian's package is for Debian's Python); None where either isn't installed."""
    mosquitto = shutil.which("mosquitto", path=os.environ.get("PATH", "") + ":/usr/sbin:/usr/local/sbin")
    for python in (sys.executable, "/usr/bin/python3"):
        words = [python, "-c", "import paho.mqtt.client, paho.mqtt.properties"]
        if mosquitto and os.access(python, os.X_OK) and subprocess.run(words, stderr=subprocess.DEVNULL).returncode == 0:
            return mosquitto, python
    return None


def hexadecimal(text):
    return text.encode().hex()


class Programs:
    """The programs between: each ends with it."""

    def __init__(self, folder, mosquitto, python):
        self.folder, self.mosquitto, self.python, self.port, self.running = folder, mosquitto, python, free_port(), {}
        os.mkdir(folder)
        with open(os.path.join(folder, "configuration"), "w") as file:
            file.write(CONFIGURATION.format(port=self.port, folder=folder))

    def __enter__(self):
        return self

    def __exit__(self, *_):
        for program in self.running.values():
            program.kill()
            program.wait()

    def start(self, name, words):
        with open(os.path.join(self.folder, name + ".out"), "a") as out, open(os.path.join(self.folder, name + ".err"), "a") as err:
            self.running[name] = subprocess.Popen(words, stdin=subprocess.DEVNULL, stdout=out, stderr=err)

    def stop(self, name, signal_of=subprocess.Popen.terminate):
        program = self.running.pop(name)
        signal_of(program)
        program.wait(timeout=20)

    def start_broker(self):
        self.start("broker", [self.mosquitto, "-c", os.path.join(self.folder, "configuration")])
        for _ in range(200):
            with socket.socket() as tried:
                if tried.connect_ex(("127.0.0.1", self.port)) == 0:
                    return
            time.sleep(0.1)
        raise AssertionError("the broker doesn't listen")

    def start_bridge(self, site):
        self.start(site.name, [self.python, "-B", "examples/application/mqtt_bridge.py", site.path, f"127.0.0.1:{self.port}", site.name])

    def start_centre(self):
        self.start("centre", [self.python, "-B", "examples/application/mqtt_centre.py", f"127.0.0.1:{self.port}"])

    def publish(self, *words):
        """Each topic with its text, one behind the other."""
        subprocess.run([self.python, "-c", PUBLISHING, str(self.port), *words], check=True, timeout=20)

    def printed(self, kind):
        """What the centre printed of a kind."""
        with open(os.path.join(self.folder, "centre.out")) as file:
            return [line.split()[1:] for line in file if line.split()[0] == kind and line.endswith("\n")]


class Train:
    """It says its reports, some of them ahead of their answers, and wants to hear a greeting and then each answer, once and in order."""

    def __init__(self, number):
        self.number, self.answered, self.goal, self.ahead, self.more = number, 0, 0, 4, ""

    def begin(self, site, conn):
        """A connection begins: what wasn't answered on the one before is said again."""
        self.site, self.conn, self.said = site, conn, self.answered
        self.awaited = collections.deque([f"welcome-train-{self.number}"])
        self.report()

    def report(self):
        while self.said < min(self.goal, self.answered + self.ahead):
            self.said += 1
            rest = f"{self.number:04}-{self.said:04}{self.more}"
            self.awaited.append(f"movement-authority-{rest}")
            self.site.tell(f"message {self.conn} {hexadecimal(f'position-report-{rest}')}")

    def hear(self, text):
        assert self.awaited and text == hexadecimal(self.awaited[0]), f"train {self.number} heard {bytes.fromhex(text)}, and waited for {list(self.awaited)[:1]}"
        self.answered += not self.awaited.popleft().startswith("welcome")
        self.report()


class Site:
    """The loop's side of an application's socket, with trains. It waits for nobody: it does what can be done."""

    def __init__(self, folder, name):
        self.name, self.path, self.line, self.heard, self.calls = name, os.path.join(folder, name), None, [], 0
        self.listener = socket.socket(socket.AF_UNIX)
        self.listener.bind(self.path)
        self.listener.listen()
        self.listener.setblocking(False)
        self.begin()

    def begin(self):
        """The loop begins: its connections are numbered from 1."""
        self.trains, self.opened, self.untold = {}, 0, collections.deque()

    def end(self):
        """The loop ends; who were its trains."""
        if self.line:
            self.line.close()
        self.line = None
        return list(self.trains.values())

    def call(self, train):
        self.opened += 1
        self.calls += 1
        self.trains[self.opened] = train
        self.tell(f"connected {self.opened} {train.number}")
        train.begin(self, self.opened)

    def release(self, conn, sub, who):
        del self.trains[conn]
        self.tell(f"released {conn} 0 {sub} {who}")

    def tell(self, text):
        self.untold.append(text)

    def hear(self, text):
        """What the loop does behind a line of its application."""
        assert REQUESTS.fullmatch(text), f"out of the grammar: {text!r}"
        self.heard.append(text)
        kind, *rest = text.split(" ")
        conn = int(rest[0]) if rest else None
        if kind == "counts":
            self.tell(f"counts {len(self.trains)} {self.opened} {self.opened} 0")
        elif kind == "keys":
            self.tell("keys 2")
        elif kind == "drain":
            for train in list(self.trains):
                self.release(train, 0, "local")
        elif conn not in self.trains:
            self.tell(f"gone {conn}")
        elif kind == "release":
            self.release(conn, int(rest[1]), "local")
        else:
            self.trains[conn].hear(rest[1])

    def accept(self):
        line = self.listener.accept()[0]
        if self.line:
            line.close()
            return
        line.setblocking(False)
        self.line, self.held, self.out = line, b"", bytearray()
        messages = [text for text in self.untold if text.startswith("message")]
        self.untold = collections.deque([f"connected {conn} {train.number}" for conn, train in self.trains.items()] + messages)

    def move(self, readable, writable):
        if self.listener in readable:
            self.accept()
        if self.line is None:
            return
        while self.untold and len(self.out) <= MOST_FOR_APPLICATION:
            self.out += self.untold.popleft().encode() + b"\n"
        if self.line in writable and self.out:
            del self.out[:self.line.send(self.out)]
        # Where too much waits for it, an application isn't read.
        if self.line in readable and len(self.out) <= MOST_FOR_APPLICATION:
            octets = self.line.recv(65536)
            assert octets, f"the bridge of {self.name} is gone"
            *lines, self.held = (self.held + octets).split(b"\n")
            for text in lines:
                self.hear(text.decode())


def run(sites, done, seconds=60):
    """Moves the sites on until that is so."""
    end = time.monotonic() + seconds
    while not done():
        assert time.monotonic() < end, f"waited for {seconds} s"
        reading = [line for site in sites for line in (site.listener, site.line) if line]
        readable, writable, _ = select.select(reading, [site.line for site in sites if site.line and (site.out or site.untold)], [], 0.1)
        for site in sites:
            site.move(readable, writable)
