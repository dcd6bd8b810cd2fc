"""How `serve` is run as a service: running.py PROGRAM."""

import os
import re
import shlex
import shutil
import socket
import subprocess
import sys
import tempfile
import time

sys.dont_write_bytecode = True

from serving import KEYS, connected, events_of, free_port, is_listened_at, is_train, parts_of, replays_to_itself  # noqa: E402

program = os.path.abspath(sys.argv[1])
UNIT = "examples/running/euroradio.service"
SERVED, CENTRE = "examples/running/euroradio-served.service", "examples/running/euroradio-centre.service"
INSTALLED = "/usr/local/bin/euroradio"
EXAMPLES = {"/usr/local/lib/euroradio/centre.py": "examples/application/centre.py", "/usr/local/lib/euroradio/drain.py": "examples/running/drain.py"}
checks = failed = 0


def check(holds, what):
    global checks, failed
    checks += 1
    if not holds:
        failed += 1
        print("failed:", what)


def begun_call(port):
    return subprocess.Popen([program, "call", keys, f"127.0.0.1:{port}", "5", "9", "100000"], stdout=subprocess.PIPE, stderr=subprocess.DEVNULL)


def is_served(call):
    text = call.communicate(timeout=60)[0].decode()
    return call.returncode == 0 and is_train(events_of(text, "1"))


def command_of(unit, line, environment):
    """The words of a unit's command, of what systemd makes of it: %% is %, $$ is $, ${NAME} the environment's, and quotes as a shell's; and what is installed as
    it lies here."""
    with open(unit) as text:
        command = re.search(rf"^{line}=(.*)$", text.read(), re.M)[1]
    for name, value in {INSTALLED: program, **EXAMPLES, **{f"${{{name}}}": value for name, value in environment.items()}}.items():
        command = command.replace(name, shlex.quote(value))
    return shlex.split(command.replace("%%", "%").replace("$$", "$"))


def verified():
    """No unit has a word that systemd doesn't know."""
    if not shutil.which("systemd-analyze"):
        print("systemd-analyze isn't installed: the units' words weren't looked at")
        return
    for path in (UNIT, SERVED, CENTRE):
        said = subprocess.run(["systemd-analyze", "verify", path], capture_output=True, text=True, check=False).stderr
        check(os.path.basename(path) not in said, f"systemd-analyze: {said}")


def with_application():
    """The unit with an application: the centre's unit answers a train and drains at SIGTERM; without it the unit's own stop drains. The loop ends with status 0."""
    for stops in (False, True):
        folder = os.path.join(work, f"served-{stops}")
        os.mkdir(folder)
        port = free_port()
        environment = {"CREDENTIALS_DIRECTORY": work, "STATE_DIRECTORY": folder, "RUNTIME_DIRECTORY": folder, "ADDRESS": f"127.0.0.1:{port}", "RBC": "9"}
        loop = subprocess.Popen(command_of(SERVED, "ExecStart", {}), env=dict(os.environ, **environment), stderr=subprocess.DEVNULL)
        check(is_listened_at(port), "the command of the unit with an application listens")
        words = command_of(CENTRE, "ExecStart", {})
        check(words[-1] == "/run/euroradio/application", f"the centre's unit names the socket: {words}")
        centre = None if stops else subprocess.Popen([*words[:-1], os.path.join(folder, "application")], stdin=subprocess.DEVNULL, stdout=subprocess.DEVNULL)
        train = os.path.join(folder, "train")
        call = subprocess.Popen([program, "call", keys, f"127.0.0.1:{port}", "5", "9", "-", train], stdout=subprocess.PIPE, stderr=subprocess.DEVNULL, text=True)
        reports = subprocess.Popen([sys.executable, "examples/application/train.py", train, "1000000"], stdout=subprocess.PIPE, text=True)
        check(reports.stdout.readline() == "connected 1 9\n" and (stops or "message 1 " in reports.stdout.readline()), "a train is connected, and is answered")
        if stops:
            subprocess.run(command_of(SERVED, "ExecStop", environment), timeout=60, check=True)
        else:
            centre.terminate()
            check(centre.wait(timeout=60) == 0, "the centre ends")
        check(loop.wait(timeout=60) == 0, "the loop is drained")
        reports.communicate(timeout=60)
        check("< 1 released 0 0 peer\n" in call.communicate(timeout=60)[0], "the train is released")


def unit():
    """The unit's command serves, and its recording replays."""
    with open(UNIT) as text:
        check(text.read().count(INSTALLED) == 1, "the unit names the program once")
    words = command_of(UNIT, "ExecStart", {})
    state, port = os.path.join(work, "state"), free_port()
    os.mkdir(state)
    environment = dict(os.environ, CREDENTIALS_DIRECTORY=work, STATE_DIRECTORY=state, ADDRESS=f"127.0.0.1:{port}", RBC="9")
    server = subprocess.Popen(words, env=environment, stderr=subprocess.DEVNULL)
    check(is_listened_at(port), "the unit's command listens")
    check(is_served(begun_call(port)), "the unit's command serves a train")
    server.terminate()
    server.wait(timeout=60)
    names = os.listdir(state)
    check(len(names) == 1 and re.fullmatch(r"\d{8}T\d{6}Z\.recording", names[0]), f"one recording, named by its start: {names}")
    parts, told = parts_of(os.path.join(state, names[0]), os.path.join(work, "parts"))
    check(len(parts) == 1 and not told and replays_to_itself(program, keys, parts), f"its recording replays: {parts} {told}")
    refused(words, environment)


def refused(words, environment):
    """A key file that is refused, and one that isn't there, end the unit's command with a status behind which systemd doesn't start it again; an address that is in
    use doesn't."""
    with open(UNIT) as text:
        prevented = re.search(r"^RestartPreventExitStatus=(.*)$", text.read(), re.M)[1].split()
    found = []
    for name, text in (("cut", KEYS.replace('0123"', '012"')), ("none", None), ("good", KEYS)):
        folder = os.path.join(work, name)
        os.mkdir(folder)
        if text:
            with open(os.path.join(folder, "keys"), "w") as file:
                file.write(text)
        state = os.path.join(folder, "state")
        os.mkdir(state)
        with socket.create_server(("127.0.0.1", 0)) as taken:
            given = dict(environment, CREDENTIALS_DIRECTORY=folder, STATE_DIRECTORY=state, ADDRESS=f"127.0.0.1:{taken.getsockname()[1]}")
            run = subprocess.run(words, env=given, stderr=subprocess.DEVNULL, timeout=60, check=False)
        found.append((run.returncode, str(run.returncode) in prevented))
    check(found == [(4, True), (2, True), (6, False)], f"statuses, and whether the unit isn't started again: {found}")


def through_a_pipe():
    """A recording that is cut into files of 5,000 octets by `split` is whole when they are joined."""
    port, pieces = free_port(), os.path.join(work, "pieces")
    os.mkdir(pieces)
    splitter = subprocess.Popen(["split", "-C", "5000", "-a", "5", "-d", "-", os.path.join(pieces, "recording-")], stdin=subprocess.PIPE)
    server = subprocess.Popen([program, "serve", keys, f"127.0.0.1:{port}", "9", "1000000"], stdout=splitter.stdin, stderr=subprocess.DEVNULL)
    splitter.stdin.close()
    check(is_listened_at(port), "a server into a pipe listens")
    check(all(is_served(begun_call(port)) for _ in range(10)), "it serves")
    server.terminate()
    server.wait(timeout=60)
    splitter.wait(timeout=60)
    names = sorted(os.listdir(pieces))
    joined = os.path.join(work, "joined")
    with open(joined, "wb") as whole:
        for name in names:
            with open(os.path.join(pieces, name), "rb") as piece:
                whole.write(piece.read())
    parts, told = parts_of(joined, os.path.join(work, "joined-parts"))
    check(len(names) > 3, f"several files: {len(names)}")
    check(len(parts) == 10 and not told and replays_to_itself(program, keys, parts), f"joined they replay: {len(parts)} {told}")


def unread_pipe():
    """Where nobody reads the pipe of the recording, all trains stand still, and go on once it is read."""
    port = free_port()
    server = subprocess.Popen([program, "serve", keys, f"127.0.0.1:{port}", "9", "1000000"], stdout=subprocess.PIPE, stderr=subprocess.DEVNULL)
    check(is_listened_at(port), "a server into a pipe that isn't read listens")
    with connected(port) as stranger:
        stranger.sendall(b"\x7e" * 60_000)
        time.sleep(1)
        call = begun_call(port)
        time.sleep(2)
        check(call.poll() is None, "a train stands still")
        reader = subprocess.Popen(["cat"], stdin=server.stdout, stdout=subprocess.DEVNULL)
        check(is_served(call), "it goes on")
    server.terminate()
    server.wait(timeout=60)
    server.stdout.close()
    reader.wait(timeout=60)


with tempfile.TemporaryDirectory() as work:
    keys = os.path.join(work, "keys")
    with open(keys, "w") as file:
        file.write(KEYS)
    verified()
    unit()
    with_application()
    through_a_pipe()
    unread_pipe()

print(f"{checks} checks, {failed} failed")
sys.exit(1 if failed else 0)
