"""One growth of memory after the other is refused to a `serve` that serves trains: each time it must end with want of memory, and what it printed must
be a beginning of a recording. A growth by more than is needed may be refused without harm, since the needed one is asked for then. One for the end of a
train that comes turns that train alone away: the recording says how many are live, and the trains behind it are served."""

import os
import socket
import subprocess
import sys
import time

sys.dont_write_bytecode = True

from serving import free_port  # noqa: E402

program, shim, work, which = sys.argv[1:]
KEYS = """version = 1

[[key]]
engine = 5
rbc = 9
kmac = "0123456789abcdef23456789abcdef01456789abcdef0123"
"""
LAST = b"! memory\n"
# The boxes of the users are grown one after the other, all alike, before anything else of the loop.
USERS = 65_536
SAMPLE = [1, 2, 3, 5, 8, 13, 21, 34] + [USERS + n for n in (0, 1, 2, 3, 5, 8, 13, 21, 34, 55, 89, 100, 115, 144, 233, 377, 610)]
SAMPLE_BESIDE = [1, 2, 3, 5, 8, 13, 21, 34, 55, 89, 144, 233, 377, 610]
ALL = [*range(1, 20), *range(USERS - 10, USERS + 100_000)]
keys = os.path.join(work, "keys")
mark = os.path.join(work, "refused")
trace = os.path.join(work, "trace")
with open(keys, "w") as f:
    f.write(KEYS)


def is_listening(port):
    try:
        socket.create_connection(("127.0.0.1", port), timeout=1).close()
    except OSError:
        return False
    return True


def served(number, beside):
    """How a server to which this growth is refused ended, what it printed, and whether the growth came at all; its users are its own, or an application."""
    if os.path.exists(mark):
        os.remove(mark)
    port = free_port()
    address = f"127.0.0.1:{port}"
    environment = dict(os.environ, LD_PRELOAD=shim, REFUSE=str(number), REFUSED=mark)
    words = [program, "serve", keys, address, "9", "60", *[os.path.join(work, "application")] * beside]
    server = subprocess.Popen(words, stdout=subprocess.PIPE, stderr=subprocess.DEVNULL, env=environment)
    centre = [sys.executable, "-B", "examples/application/centre.py", words[-1]]
    centre = subprocess.Popen(centre, stdin=subprocess.DEVNULL, stdout=subprocess.DEVNULL) if beside else None
    for _ in range(200):
        if server.poll() is not None or is_listening(port):
            break
        time.sleep(0.01)
    trains = 0
    while server.poll() is None and trains < 40:
        subprocess.run([program, "call", keys, address, "5", "9", "200"], stdout=subprocess.DEVNULL, stderr=subprocess.DEVNULL, timeout=60)
        trains += 1
    text, _ = server.communicate(timeout=60)
    if centre:
        centre.kill()
        centre.wait()
    return server.returncode, text, os.path.exists(mark)


def is_beginning(text):
    """Whether a text is a beginning of what a replay of it prints."""
    if text == b"":
        return True
    with open(trace, "wb") as f:
        f.write(text)
    replay = subprocess.run([program, "replay", keys, trace], capture_output=True, timeout=60)
    return replay.returncode == 0 and replay.stdout.startswith(text)


failed = 0


def refuse_each(numbers, beside):
    """Whether want of memory ended a server, and turned a train away where no application is beside; and how many growths were refused and borne."""
    global failed
    refused = borne = declined = 0
    for number in numbers:
        status, text, came = served(number, beside)
        if not came:
            if status != 0 or not is_beginning(text):
                failed += 1
                print(f"failed: nothing was refused, and yet status {status}, {text[-200:]}")
            break
        refused += 1
        if status == 0 and is_beginning(text):
            borne += 1
            declined += b" full " in text
        elif status != 7 or not text.endswith(LAST) or not is_beginning(text[: -len(LAST)]):
            failed += 1
            print(f"failed: growth {number} refused: status {status}, {text[-200:]}")
    print(f"{'with an application' if beside else 'serve'}: {refused} growths refused, {borne} borne, {declined} trains turned away")
    if refused and not declined and not beside:
        failed += 1
        print("failed: no train was turned away for want of memory")
    return refused > borne


is_met = refuse_each(SAMPLE if which == "sample" else ALL, False)
is_met = refuse_each(SAMPLE_BESIDE if which == "sample" else range(1, 100_000), True) and is_met

# ---- the commands that read a file: one growth after the other is refused, each ends with want of memory behind a beginning of what it prints, or prints all

COMMANDS = [
    ["drill", "examples/whole-session.drill"], ["audit", "examples/recorded-session.keys", "examples/recorded-link.tap"],
    ["replay", "examples/recorded-session.keys", "examples/recorded-session.trace"], ["bits", "examples/recorded-line.bits"],
    ["migrate", "examples/recorded-session.keys"], ["bulk", "7", "3"],
]
for words in COMMANDS:
    whole = subprocess.run([program, *words], capture_output=True, timeout=60)
    ended = {0: 0, 7: 0}
    for number in range(1, 400 if which == "sample" else 100_000):
        if os.path.exists(mark):
            os.remove(mark)
        environment = dict(os.environ, LD_PRELOAD=shim, REFUSE=str(number), REFUSED=mark)
        run = subprocess.run([program, *words], capture_output=True, timeout=60, env=environment)
        if not os.path.exists(mark):
            break
        is_whole = (run.returncode, run.stdout) == (0, whole.stdout)
        is_cut = run.returncode == 7 and run.stdout.endswith(LAST) and whole.stdout.startswith(run.stdout[: -len(LAST)])
        if is_whole or is_cut:
            ended[run.returncode] += 1
        else:
            failed += 1
            print(f"failed: {words[0]}, growth {number} refused: status {run.returncode}, {run.stdout[-80:]}")
    print(f"{words[0]}: {ended[7]} growths refused, {ended[0]} borne")
    if whole.returncode != 0 or ended[7] == 0:
        failed += 1
        print(f"failed: {words[0]} with all its memory: status {whole.returncode}")
print(f"{failed} failed")
sys.exit(1 if failed or not is_met else 0)
