#!/usr/bin/env python3
"""The public laws: tests/laws.py [CRATE..] prints each with what it says in full, the comment above it, and the definitions that its contract names.

A law is a function of a crate's module `laws` whose contract is the claim. Without a name all crates that have laws are printed, in the order of crates.txt.
The status is 1 where a law has no comment, or where a crate that is named has no law.
"""
import os
import re
import sys

TOP = os.path.dirname(os.path.dirname(os.path.abspath(__file__)))
GHOST = re.compile(r"^ghost use Rattle\.(\w+)\.specs\.(\w+)\.\{([^}]*)\};", re.M)
LAW = re.compile(r"((?:^///[^\n]*\n)*)^pub fn (\w+)(?:<[^>]*>)?\(([^)]*)\)[^\n]*\n(.*?)^\{", re.M | re.S)
WORD = re.compile(r"(?<![\w.])[A-Za-z_◌]\w*")


def sources_of(crate):
    """The files of a crate's module of laws."""
    folder = os.path.join(TOP, "crates", crate, "src")
    inner = os.path.join(folder, "laws")
    paths = [os.path.join(folder, "laws.rt")] + [os.path.join(inner, name) for name in (sorted(os.listdir(inner)) if os.path.isdir(inner) else [])]
    return [path for path in paths if os.path.exists(path)]


def laws_of(crate):
    """(name, what it says, the definitions that its contract names) of each law of a crate."""
    for path in sources_of(crate):
        with open(path, encoding="utf-8") as file:
            text = file.read()
        homes = {name.strip(): f"{home}/specs/{module}" for home, module, names in GHOST.findall(text) for name in names.split(",")}
        for comment, name, _, contract in LAW.findall(text):
            said = " ".join(line[3:].strip() for line in comment.splitlines())
            named = dict.fromkeys(word for word in WORD.findall(contract) if word in homes and not homes[word].startswith("std/"))
            yield name, said, [f"{homes[word]}.{word}" for word in named]


def crates():
    """The crates of crates.txt, from the bottom up."""
    with open(os.path.join(TOP, "crates.txt"), encoding="utf-8") as text:
        return re.findall(r"^(\w+)(?: staticlib)?:", text.read(), re.M)


def main():
    faults = []
    for crate in sys.argv[1:] or crates():
        laws = list(laws_of(crate)) if os.path.isdir(os.path.join(TOP, "crates", crate)) else []
        if sys.argv[1:] and not laws:
            faults.append(f"{crate} has no law")
        for name, said, named in laws:
            print(f"{crate}::laws::{name}: {said}")
            print(*(f"    {it}" for it in named), sep="\n")
            faults += [] if said else [f"{crate}::laws::{name} says nothing"]
    print("\n".join(faults), file=sys.stderr, end="\n" if faults else "")
    return 1 if faults else 0


if __name__ == "__main__":
    sys.exit(main())
