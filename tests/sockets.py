"""One `serve` and many clients on the loopback address; what each train and the recording must show. Then one whose peer never reads, and peers that
send much at once, shut their side or are said farewell to."""

import os
import re
import socket
import subprocess
import sys
import tempfile
import time

sys.dont_write_bytecode = True

from serving import free_port, parts_of, replays_to_itself  # noqa: E402

program = sys.argv[1]
REPORTS = [f"position-report-{n:08}".encode().hex() for n in (1, 2, 3)]
KEYS = """version = 1

[[key]]
engine = 5
rbc = 9
kmac = "0123456789abcdef23456789abcdef01456789abcdef0123"
"""
checks = failed = 0


def check(holds, what):
    global checks, failed
    checks += 1
    if not holds:
        failed += 1
        print("failed:", what)


def connected(port):
    return socket.create_connection(("127.0.0.1", port), timeout=10)


def events_of(text, conn):
    """What a connection's lines tell, octets, moments and random numbers left out."""
    told = []
    for line in text.splitlines():
        words = line.split()
        if words[:1] == [">"] and words[2] == conn and words[3] not in ("octets", "tick"):
            told.append(" ".join(words[3:4] + ([] if words[3] in ("call", "answer") else words[4:])))
        if words[:1] == ["<"] and words[1] == conn and words[2] != "octets":
            told.append(" ".join(words[2:]))
    return told


def serving(work, turns):
    """A server at a free port of the loopback address, the first client that it took, and the file of its recording."""
    keys = os.path.join(work, "keys")
    with open(keys, "w") as f:
        f.write(KEYS)
    port = free_port()
    address = f"127.0.0.1:{port}"
    recording = os.path.join(work, "recording")
    with open(recording, "wb") as out:
        server = subprocess.Popen([program, "serve", keys, address, "9", turns], stdout=out, stderr=subprocess.DEVNULL)
    for _ in range(100):
        try:
            return server, connected(port), recording, port
        except OSError:
            time.sleep(0.05)
    sys.exit(f"nobody listens at {address}")


def never_reads():
    """A peer that sends set-up frames and reads no answer: what waits for it grows past the room of the kernel and past 262,144 octets."""
    with tempfile.TemporaryDirectory() as work:
        server, probe, recording, port = serving(work, "10000000")
        deaf = connected(port)
        deaf.settimeout(20)
        try:
            for _ in range(4_000):
                deaf.sendall(bytes.fromhex("7e013febdf7e") * 500)
        except OSError:
            pass
        time.sleep(0.5)
        server.terminate()
        server.wait()
        with open(recording, "rb") as f:
            lines = f.read()[-1_000:].decode().splitlines()
        check(lines[-1:] == ["< 2 released 1 7 local"] and lines[-2].endswith(" 2 stalled"), f"a peer that never reads stalls: {lines[-2:]}")
        check(sum(1 for it in lines if it == "< 2 octets 7e017383577e") > 1, "each set-up frame before was answered")
        probe.close()
        deaf.close()


def frame(address, control):
    """A frame without information."""
    check_sequence = 0xFFFF
    for octet in (address, control):
        check_sequence ^= octet
        for _ in range(8):
            check_sequence = check_sequence >> 1 ^ (0x8408 if check_sequence & 1 else 0)
    return bytes((0x7E, address, control)) + (check_sequence ^ 0xFFFF).to_bytes(2, "little") + b"\x7e"


def heard(client, most):
    """What a client hears until the server has closed, at most so many octets, and whether it closed without a reset."""
    got = b""
    try:
        while len(got) < most:
            piece = client.recv(min(most - len(got), 65_536))
            if not piece:
                return got, True
            got += piece
    except OSError:
        return got, False
    return got, False


def farewells():
    """What is said at the end arrives: to one that sent 5,000 octets at once, one that shut its side, and one that goes on sending behind the release."""
    sabm, ua, disc = frame(0x01, 0x3F), frame(0x01, 0x73), frame(0x01, 0x53)
    with tempfile.TemporaryDirectory() as work:
        server, probe, recording, port = serving(work, "1000000")
        much = connected(port)
        much.sendall(sabm * 834)
        got, _ = heard(much, 6 * 834)
        check(got == ua * 834, f"5,004 octets at once are all answered: {len(got)}")
        half = connected(port)
        half.sendall(sabm)
        half.shutdown(socket.SHUT_WR)
        got, closed = heard(half, 1_000)
        check(got[:6] == ua and closed, f"one that shut its side is answered, and then closed: {got.hex()} {closed}")
        late = connected(port)
        late.sendall(sabm + disc)
        sent = 0
        for _ in range(5):
            time.sleep(0.2)
            try:
                late.sendall(sabm * 200)
                sent += 1
            except OSError:
                break
        time.sleep(0.3)
        reset = late.getsockopt(socket.SOL_SOCKET, socket.SO_ERROR)
        got, closed = heard(late, 1_000)
        check(got[:6] == ua and len(got) > 6 and closed, f"the answer to a release arrives, whatever comes behind it: {got.hex()} {closed}")
        check(sent == 5 and reset == 0, f"one that sends on five times behind its release is never reset: {sent} {reset}")
        begun = time.monotonic()
        other = connected(port)
        other.sendall(sabm)
        got, _ = heard(other, 6)
        check(got == ua and time.monotonic() - begun < 1, "a connection that leaves holds nobody up")
        for client in (probe, much, half, late, other):
            client.close()
        server.terminate()
        server.wait()


def last_turns():
    """Behind the last turn each peer is closed, and none is reset, though octets of theirs weren't read."""
    with tempfile.TemporaryDirectory() as work:
        server, probe, recording, port = serving(work, "12")
        peers = [probe]
        for _ in range(3):
            peers.append(connected(port))
            time.sleep(0.1)
        for peer in peers:
            peer.sendall(b"~" * 50_000)
        told = [heard(peer, 1_000) for peer in peers]
        status = server.wait(timeout=60)
        with open(recording, "rb") as text:
            came = sum(len(octets) // 2 for octets in re.findall(rb"^> \d+ \d+ octets ([0-9a-f]+)$", text.read(), re.M))
        check(status == 0 and came < 200_000, f"a server ends by its turns before it read all: {status} {came}")
        check(all(closed for _, closed in told), f"peers whose octets weren't read are closed and not reset: {told}")
        for peer in peers:
            peer.close()


def is_train(told):
    """A whole session of a train: connected, three reports sent, each echoed, taken in order, then the user's release."""
    taken = [w.split()[1] for w in told if w.startswith("taken ")]
    sent = [w.split()[1] for w in told if w.startswith("send ")]
    return "connected 9" in told and sent == REPORTS and taken == REPORTS and told[-1] == "released 0 0 local"


with tempfile.TemporaryDirectory() as work:
    server, probe, recording, port = serving(work, "1000000")
    keys = os.path.join(work, "keys")
    address = f"127.0.0.1:{port}"
    # one client sends 100,000 random octets, one closes in mid-frame, one never reads
    noise = connected(port)
    noise.sendall(os.urandom(100_000))
    mid = connected(port)
    mid.sendall(bytes.fromhex("7e013f"))
    mid.close()
    deaf = connected(port)
    deaf.setsockopt(socket.SOL_SOCKET, socket.SO_RCVBUF, 4096)
    deaf.sendall(bytes.fromhex("7e013febdf7e") * 100)

    alone = subprocess.run([program, "call", keys, address, "5", "9", "10000"], capture_output=True, timeout=60)
    alone_told = events_of(alone.stdout.decode(), "1")
    check(alone.returncode == 0 and is_train(alone_told), f"a train alone: {alone.returncode} {alone_told}")
    trains = [
        subprocess.Popen([program, "call", keys, address, "5", "9", "10000"], stdout=subprocess.PIPE, stderr=subprocess.DEVNULL) for _ in range(10)
    ]
    for n, train in enumerate(trains):
        text = train.communicate(timeout=60)[0].decode()
        check(train.returncode == 0 and events_of(text, "1") == alone_told, f"train {n}: {train.returncode} {events_of(text, '1')}")
    for client in (probe, noise, deaf):
        client.close()
    time.sleep(0.5)
    server.terminate()
    server.wait()

    with open(recording, "rb") as f:
        text = f.read()
    check(text.endswith(b"\n"), "the recording has whole lines")
    moments = [int(m) for m in re.findall(rb"^> (\d+) ", text, re.M)]
    check(moments and all(1 <= m <= 10**15 for m in moments) and moments == sorted(moments), "moments of the machine's clock")
    conns = re.findall(rb"^> \d+ (\d+) answer 9 ", text, re.M)
    served = [events_of(text.decode(), c.decode()) for c in conns]
    whole = [t for t in served if [w for w in t if w.startswith("taken ")] == [f"taken {r}" for r in REPORTS]]
    check(len(conns) == 15, f"fifteen connections were answered: {len(conns)}")
    cut = events_of(text.decode(), "3")
    check(cut == ["answer", "ended", "released 1 5 local"], f"a close in mid-frame ends the connection with 1.5: {cut}")
    noisy = events_of(text.decode(), "2")
    check(noisy[:1] == ["answer"] and not [w for w in noisy if w.startswith(("connected", "accepted"))], f"random octets connect nobody: {noisy}")
    check(len(whole) == 11, f"eleven trains were served whole: {len(whole)}")
    check(all("connected 5" in t and t[-1].startswith("released 0 0 peer") for t in whole), "each of them connected and left")
    again = subprocess.run([program, "replay", keys, recording], capture_output=True, timeout=60)
    check(again.returncode == 0 and again.stdout == text, "the recording replays to itself")
    parts, told = parts_of(recording, os.path.join(work, "parts"))
    check(len(parts) == 15 and told == [], f"fifteen parts, and nothing left out: {len(parts)} {told}")
    check(replays_to_itself(program, keys, parts), "each part replays to itself")

never_reads()
farewells()
last_turns()
print(f"{checks} checks, {failed} failed")
sys.exit(1 if failed else 0)
