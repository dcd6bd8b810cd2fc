"""Holds what `euroradio --version` tells against the tree: the kit by which it is proved, and the sum of the sources of which the program is built.

Usage: origin.py [--write]. --write brings crates/euroradio/src/origin.rt up to date; without it the status is 1 where that file has drifted. The sum is the SHA-256
of a line `SHA-256 PATH` for crates.txt and each file of src/, specs/ and proofs/ of euroradio and of the crates that it uses, in order of their paths, origin.rt
left out: `git ls-files` and sha256sum make it too.
"""
import hashlib
import os
import re
import subprocess
import sys

TOP = os.path.dirname(os.path.dirname(os.path.abspath(__file__)))
PROGRAM = "euroradio"
ORIGIN = f"crates/{PROGRAM}/src/origin.rt"


def crates():
    """The program's crate and all that it uses of this repository."""
    rows = {}
    with open(os.path.join(TOP, "crates.txt")) as text:
        for line in text:
            head, colon, uses = line.partition("#")[0].partition(":")
            if colon:
                rows[head.split()[0]] = uses.split()
    used, left = set(), [PROGRAM]
    while left:
        crate = left.pop()
        if crate in rows and crate not in used:
            used.add(crate)
            left += rows[crate]
    return used


def sources():
    paths = ["crates.txt"]
    for crate in crates():
        for part in ("src", "specs", "proofs"):
            for folder, _, names in os.walk(os.path.join(TOP, "crates", crate, part)):
                paths += [os.path.relpath(os.path.join(folder, name), TOP) for name in names if name.endswith((".rt", ".antt"))]
    return sorted(it for it in paths if it != ORIGIN)


def sum_of_sources():
    lines = []
    for path in sources():
        with open(os.path.join(TOP, path), "rb") as file:
            lines.append(f"{hashlib.sha256(file.read()).hexdigest()} {path}\n")
    return hashlib.sha256("".join(lines).encode()).hexdigest()


def main():
    with open(os.path.join(TOP, ORIGIN)) as file:
        text = file.read()
    kit = subprocess.run(["rt", "version"], capture_output=True, text=True, check=False).stdout.strip()
    wanted = re.sub(r"\\nkit [^\\]*\\n", lambda _: f"\\nkit {kit}\\n", re.sub(r"sources [0-9a-f]{64}", f"sources {sum_of_sources()}", text))
    if text == wanted:
        print("1 passed, 0 failed")
        return 0
    if "--write" in sys.argv[1:]:
        with open(os.path.join(TOP, ORIGIN), "w") as file:
            file.write(wanted)
        return 0
    print(f"{ORIGIN} isn't that of these sources and this kit: python3 tests/origin.py --write mends it\n0 passed, 1 failed")
    return 1


if __name__ == "__main__":
    sys.exit(main())
