"""What the gate has proved of this tree, in numbers, and the sum of the program that it built; and the status line of README.md.

    tests/proved.py [PROGRAM]  prints both
    tests/proved.py --passed   writes into README.md that `rt ci` passed, today, on this tree: for whoever has just seen it pass
    tests/proved.py --write    brings version and kit there up to date, and leaves what it says of the gate
"""
import datetime
import glob
import hashlib
import os
import re
import sys

TOP = os.path.dirname(os.path.dirname(os.path.abspath(__file__)))
README = os.path.join(TOP, "README.md")
BEGIN, END = "<!-- made by tests/proved.py -->", "<!-- end -->"
NOT_YET = "No pass of the gate is written down for it."


def count(pattern, *parts):
    found = 0
    for path in glob.glob(os.path.join(TOP, "crates", "*", *parts), recursive=True):
        with open(path) as file:
            found += len(re.findall(pattern, file.read(), re.M))
    return found


def numbers():
    """What there is to prove in the tree."""
    crates = len(glob.glob(os.path.join(TOP, "crates", "*", "src")))
    functions = count(r"^\s*(?:pub(?:\(crate\))? )?(?:(?:const|unsafe|extern \"C\") )*fn \w+", "src", "**", "*.rt")
    clauses = count(r"^\s*ensures", "src", "**", "*.rt")
    edits = len(glob.glob(os.path.join(TOP, "crates", "*", "must-fail", "*.edit")))
    return f"{crates} crates, {functions:,} functions, {clauses:,} clauses that they ensure, {edits} must-fail edits"


def origin():
    """Version, kit and the sum of the sources, as the program tells them."""
    with open(os.path.join(TOP, "crates", "euroradio", "src", "origin.rt")) as file:
        return re.search(r'"euroradio ([\d.]+)\\nkit ([^\\]*)\\nsources ([0-9a-f]+)', file.read()).groups()


def status(gate):
    version, kit, _ = origin()
    return f"{BEGIN}\nVersion {version}, kit `{kit}`.\n{gate}\n{END}"


def passed():
    return f"`rt ci` passed on {datetime.date.today()}, on sources {origin()[2][:12]}:\n{numbers()}."


def faults(write=False, gate=None):
    """What of the status line in README.md isn't as the tree has it."""
    with open(README, encoding="utf-8") as file:
        text = file.read()
    begin, end = text.find(BEGIN), text.find(END)
    if begin < 0 or end < begin:
        return ["README.md has no place for the status line"]
    old = text[begin : end + len(END)]
    made = status(gate or "\n".join(old.split("\n")[2:-1]) or NOT_YET)
    if write:
        with open(README, "w", encoding="utf-8") as file:
            file.write(text[:begin] + made + text[end + len(END) :])
        return []
    return [] if old == made else ["README.md: version or kit isn't that of the tree: python3 tests/proved.py --write mends it"]


def main():
    if sys.argv[1:] in (["--passed"], ["--write"]):
        print("\n".join(faults(True, passed() if sys.argv[1] == "--passed" else None)))
        return
    print(numbers())
    program = sys.argv[1] if len(sys.argv) > 1 else os.path.join(TOP, "crates", "euroradio", "out", "euroradio")
    if os.path.exists(program):
        with open(program, "rb") as file:
            print(f"SHA-256 {hashlib.sha256(file.read()).hexdigest()} {os.path.basename(program)}")


if __name__ == "__main__":
    main()
