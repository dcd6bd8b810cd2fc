"""Trains over several `serve` processes behind HAProxy: haproxy.py PROGRAM HAPROXY."""

import os
import re
import socket
import subprocess
import sys
import tempfile
import time

sys.dont_write_bytecode = True

from serving import KEYS, connected, events_of, free_ports, is_listened_at, is_train, parts_of, replays_to_itself  # noqa: E402
from train import Train  # noqa: E402

program, haproxy = sys.argv[1:]
CONFIGURATION = "examples/running/haproxy.cfg"
FRONT, BEHIND = 4711, (4712, 4713, 4714)
CALLS, AT_ONCE = 600, 60
checks = failed = 0


def check(holds, what):
    global checks, failed
    checks += 1
    if not holds:
        failed += 1
        print("failed:", what)


def configured(work, ports, bounds=None):
    """The configuration of the examples, at these ports; with `bounds` an address has these: all calls come from one here."""
    with open(CONFIGURATION) as text:
        lines = text.read()
    for was, port in zip((FRONT, *BEHIND), ports):
        lines, count = re.subn(rf"127\.0\.0\.1:{was}\b", f"127.0.0.1:{port}", lines)
        check(count == 1, f"the configuration names port {was} once")
    lines, count = re.subn(r"(?<=stats socket )\S+", os.path.join(work, "admin"), lines)
    check(count == 1, "the configuration names one socket of its own")
    lines, count = re.subn(r"(sc0_conn_(?:cur|rate) gt) \d+", lambda found: f"{found[1]} {bounds}" if bounds else found[0], lines)
    check(count == 2, "the configuration bounds the connections of an address, and how many come in a minute")
    path = os.path.join(work, "haproxy.cfg")
    with open(path, "w") as file:
        file.write(lines)
    return path


def begun(words, port, out):
    """A process that listens at this port of the loopback address."""
    process = subprocess.Popen(words, stdout=out, stderr=subprocess.DEVNULL)
    if not is_listened_at(port):
        sys.exit(f"nobody listens at port {port}")
    return process


def called(port, count):
    """So many calls, some at once: how many ended as a train does."""
    whole = 0
    for begin in range(0, count, AT_ONCE):
        words = [program, "call", keys, f"127.0.0.1:{port}", "5", "9", "100000"]
        calls = [subprocess.Popen(words, stdout=subprocess.PIPE, stderr=subprocess.DEVNULL) for _ in range(min(AT_ONCE, count - begin))]
        for call in calls:
            text = call.communicate(timeout=120)[0].decode()
            whole += call.returncode == 0 and is_train(events_of(text, "1"))
    return whole


def told(work, command):
    """What HAProxy answers to a command at its own socket."""
    with socket.socket(socket.AF_UNIX) as admin:
        admin.connect(os.path.join(work, "admin"))
        admin.sendall(command.encode() + b"\n")
        return admin.recv(65536).decode()


def exchanged(train, line, text):
    """A message that a train says is said back to it."""
    count = len(train.heard)
    line.sendall(train.say(text))
    while len(train.heard) == count:
        line.sendall(train.receive(line.recv(65536)))
    return train.heard[-1] == text


def answers(recordings):
    """How many connections each serve answered."""
    counts = []
    for path in recordings:
        with open(path, "rb") as file:
            counts.append(file.read().count(b" answer 9 "))
    return counts


def drained(work, port, recordings):
    """A serve that is taken out of the row keeps its train and gets no other one."""
    before = answers(recordings)
    train = Train(5, 9, KEYS.split('"')[1], os.urandom)
    with connected(port) as line:
        line.sendall(train.start())
        while train.state != "connected":
            line.sendall(train.receive(line.recv(65536)))
        with_train = answers(recordings)
        place = [n for n in range(3) if with_train[n] == before[n] + 1]
        check(len(place) == 1, f"a train is at one serve: {before}, {with_train}")
        check(told(work, f"set server centres/centre{place[0] + 1} state drain").strip() == "", "a serve is taken out of the row")
        check(called(port, AT_ONCE) == AT_ONCE, "calls are served while one serve is taken out of the row")
        behind = answers(recordings)
        check(behind[place[0]] == with_train[place[0]] and sum(behind) == sum(with_train) + AT_ONCE, f"by the others: {with_train}, {behind}")
        check(exchanged(train, line, b"still here"), "its train stays")
        line.sendall(train.release())
        line.shutdown(socket.SHUT_WR)
        while line.recv(65536):
            pass
    told(work, f"set server centres/centre{place[0] + 1} state ready")


def ended(process):
    process.terminate()
    process.wait(timeout=60)


def is_gone(client):
    """Whether a client is cut off, within ten seconds."""
    try:
        return client.recv(1) == b""
    except ConnectionError:
        return True
    except OSError:
        return False


def is_cut_off(port, address):
    """Whether a client of this address is cut off within three seconds, be it while it connects."""
    try:
        with socket.create_connection(("127.0.0.1", port), timeout=3, source_address=(address, 0)) as client:
            return is_gone(client)
    except ConnectionError:
        return True


def counted(work, address):
    """How many connections of an address HAProxy counts at this moment."""
    found = re.search(rf"key=(?:::ffff:)?{re.escape(address)} .*conn_cur=(\d+)", told(work, "show table trains"))
    return int(found[1]) if found else 0


def bounded(work, ports):
    """By the very bounds of the file an address has eight connections at once, and sixty in a minute; another address is served meanwhile. Answers how many
    calls were served."""
    begin = time.monotonic()
    clients = [socket.create_connection(("127.0.0.1", ports[0]), timeout=10, source_address=("127.0.0.9", 0)) for _ in range(8)]
    # HAProxy's threads take connections side by side: the ninth is the ninth once it counted eight.
    while counted(work, "127.0.0.9") < 8 and time.monotonic() - begin < 4:
        time.sleep(0.01)
    check(counted(work, "127.0.0.9") == 8, "eight connections of an address stand")
    check(is_cut_off(ports[0], "127.0.0.9"), "the ninth connection of an address is cut off at once")
    check(called(ports[0], 8) == 8, "eight calls of another address are served meanwhile")
    check(all(map(is_gone, clients)), "who says nothing is cut off")
    check(time.monotonic() - begin < 30, "within five seconds or so")
    for client in clients:
        client.close()
    # Eight of a minute's sixty were spent.
    served = sum(called(ports[0], 1) for _ in range(60))
    check(served == 52 or served > 52 and time.monotonic() - begin > 50, f"sixty calls in a minute: {served} and 8")
    return 8 + served


def judge(paths):
    """What the recordings of all serves tell: how many connections each answered; each connection replays to itself."""
    counts, whole = [], 0
    for path in paths:
        folder = path + ".parts"
        parts, told = parts_of(path, folder)
        check(told == [], f"whole lines: {told[:3]}")
        opened = 0
        for part in parts:
            with open(part, "rb") as file:
                text = file.read().decode()
            conn = re.search(r"connection-(\d+)", part)[1]
            events = events_of(text, conn)
            opened += events[:1] == ["answer"]
            whole += sum(event.startswith("accepted ") for event in events) == 3 and events[-1] == "released 0 0 peer"
        counts.append(opened)
        check(replays_to_itself(program, keys, parts), f"each connection of {os.path.basename(path)} replays to itself")
    return counts, whole


with tempfile.TemporaryDirectory() as work:
    keys = os.path.join(work, "keys")
    with open(keys, "w") as file:
        file.write(KEYS)
    ports = free_ports(4)
    recordings = [os.path.join(work, f"recording-{n}") for n in (1, 2, 3)]
    serves = []
    for port, path in zip(ports[1:], recordings):
        with open(path, "wb") as out:
            serves.append(begun([program, "serve", keys, f"127.0.0.1:{port}", "9", "1000000000"], port, out))
    balancer = begun([haproxy, "-f", configured(work, ports), "-db"], ports[0], subprocess.DEVNULL)
    before = bounded(work, ports)
    ended(balancer)
    balancer = begun([haproxy, "-f", configured(work, ports, 100_000), "-db"], ports[0], subprocess.DEVNULL)

    # Clients that never reach a serve: two hundred that say nothing, and some that say no frame.
    silent = [connected(ports[0]) for _ in range(200)]
    noise = [connected(ports[0]) for _ in range(20)]
    for client in noise:
        client.sendall(b"GET / HTTP/1.0\r\n\r\n")

    check(called(ports[0], CALLS) == CALLS, "each call is connected, and its three reports come back")
    check(all(map(is_gone, noise)), "who says no frame is cut off")
    check(all(map(is_gone, silent)), "who says nothing is cut off")
    answered, whole = judge(recordings)
    check(sum(answered) == CALLS + before, f"the serves answered the calls and nothing else: {answered}")
    check(whole == CALLS + before, f"each serve heard three reports a call, and a release: {whole}")
    check(min(answered) >= CALLS // 6, f"each serve has its share: {answered}")

    drained(work, ports[0], recordings)

    # One serve is gone: its share goes to the others.
    ended(serves[0])
    was = answers(recordings)
    check(called(ports[0], AT_ONCE) == AT_ONCE, "with one serve gone each call is served by the others")
    for process in (balancer, *serves[1:]):
        ended(process)
    behind, whole = judge(recordings)
    check(behind[0] == was[0] and sum(behind) == sum(was) + AT_ONCE, f"by the others alone: {was}, then {behind}")
    check(whole == CALLS + before + 2 * AT_ONCE, f"each call was heard: {whole}")
    for client in (*silent, *noise):
        client.close()

print(f"{checks} checks, {failed} failed")
sys.exit(1 if failed else 0)
