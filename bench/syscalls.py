"""For syscalls.sh beside it: syscalls.py PROGRAM."""

import collections
import os
import re
import signal
import subprocess
import sys
import tempfile
import time

sys.dont_write_bytecode = True
sys.path.insert(0, os.path.join(os.path.dirname(os.path.dirname(os.path.abspath(__file__))), "tests"))

from serving import KEYS, free_port, is_listened_at  # noqa: E402

program = os.path.abspath(sys.argv[1])
CALLS = 50
# A line of strace with -y: the call, and the descriptor that it names first, with what that is.
LINE = re.compile(r"^(?:\d+ +)?(\w+)\((?:\d+<([^>]*)>)?.* = (-?\d+|\?)(?: (\w+))?")


def what(name, at, recording):
    """What a descriptor is, in words."""
    if at is None:
        return "nothing"
    if at == recording:
        return "the recording"
    if "eventpoll" in at:
        return "epoll"
    return "a socket" if at.startswith(("TCP", "socket", "TCPv6")) else "another file"


def counted(work, calls):
    """How often each system call came, once the server listened: by its name and what it was made to, and what it answered."""
    keys, recording, trace, port = (os.path.join(work, "keys"), os.path.join(work, "recording"), os.path.join(work, "trace"), free_port())
    with open(keys, "w") as file:
        file.write(KEYS)
    with open(recording, "wb") as out:
        words = ["strace", "-f", "-y", "-o", trace, program, "serve", keys, f"127.0.0.1:{port}", "9", "1000000000"]
        server = subprocess.Popen(words, stdout=out, stderr=subprocess.DEVNULL, start_new_session=True)
    if not is_listened_at(port):
        sys.exit("serve doesn't listen")
    time.sleep(0.5)
    start = os.path.getsize(trace)
    for _ in range(calls):
        done = subprocess.run([program, "call", keys, f"127.0.0.1:{port}", "5", "9", "100000"], capture_output=True, check=False)
        if done.returncode != 0 or done.stdout.count(b" taken ") != 3:
            sys.exit("a call wasn't served")
    time.sleep(0.5)
    end = os.path.getsize(trace)
    os.killpg(server.pid, signal.SIGTERM)
    server.wait()
    counts = collections.Counter()
    with open(trace) as text:
        text.seek(start)
        for line in text.read(end - start).splitlines():
            found = LINE.match(line)
            if found:
                name, at, answer, error = found.groups()
                end_of = error or ("0" if answer == "0" and name in ("recvfrom", "read", "epoll_wait") else "done")
                counts[name, what(name, at, recording), end_of] += 1
    return counts


def main():
    with tempfile.TemporaryDirectory() as work:
        counts = counted(work, CALLS)
    print(f"system calls of serve for one call, mean of {CALLS}:")
    total = 0
    for (name, to, answer), count in sorted(counts.items(), key=lambda item: -item[1]):
        total += count
        print(f"{count / CALLS:6.2f}  {name} of {to}: {answer}")
    print(f"{total / CALLS:6.2f}  in all")


main()
