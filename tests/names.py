#!/usr/bin/env python3
"""One word, one meaning: a public name of specs/, and a type that a library exports, stands in one crate, but for those that tests/names.txt lists
with their crates.

    tests/names.py         compares the list with the tree; each difference is printed, the status is 1 where there is one
    tests/names.py --told  prints each such name, and what it says in each of its crates: the comment above it, or its first line where none stands there
    tests/names.py --write writes the list anew: for whoever has looked whether a name means the same in all of its crates

Most of them stand in crates that say the same of another kind of thing: framing of octets and of bits, the grammars of files, links of two stations, of two
ends and of the drill, and what each layer answers for its own units. A few small ones stand twice to the letter, since neither crate is below the other.
A type that a crate merely gives on is at home where it is defined, and one that no other crate can name isn't counted.
"""
import collections
import glob
import os
import re
import sys

TOP = os.path.dirname(os.path.dirname(os.path.abspath(__file__)))
LIST = os.path.join(TOP, "tests", "names.txt")
HEAD = "# Public names of definitions, and exported types (`type NAME`), that stand in more than one crate, by these crates: tests/names.py.\n"
NAME = re.compile(r"^(?:abbrev|unfoldable) pub ([^\s:]+)")
TYPE = re.compile(r"^pub (?:struct|enum|trait|type) (\w+)")
GIVEN = re.compile(r"^pub (?:use ([^;]*)|mod (\w+));", re.MULTILINE)


def files_of(*parts):
    """The files below the top that have this pattern, each with its crate."""
    for path in sorted(glob.glob(os.path.join(TOP, "crates", "*", *parts), recursive=True)):
        yield os.path.relpath(path, TOP).split("/")[1], path


def said_of(path, pattern, mark):
    """Each name of a file that the pattern finds, with the comment above it, attributes left out, or its line."""
    comment = []
    with open(path, encoding="utf-8") as text:
        for line in text:
            if line.startswith(mark):
                comment.append(line[len(mark):].strip())
                continue
            named = pattern.match(line)
            if named:
                yield named[1], " ".join(comment) or line.strip()
            if not line.startswith("#["):
                comment = []


def exported():
    """Of each library: the words that its lib.rt gives by `pub use`, and the files that it gives whole by `pub mod`."""
    given = collections.defaultdict(set)
    for crate, path in files_of("src", "lib.rt"):
        with open(path, encoding="utf-8") as text:
            for used, module in GIVEN.findall(text.read()):
                given[crate].update(re.findall(r"\w+", used))
                given[crate].update([module + ".rt"] if module else [])
    return given


def homes():
    """Each such name that stands in several crates: what is said of it, by crate. A type's begins with `type`."""
    found = collections.defaultdict(lambda: collections.defaultdict(set))
    for crate, path in files_of("specs", "**", "*.antt"):
        for name, said in said_of(path, NAME, "-- "):
            found[name][crate].add(said)
    given = exported()
    for crate, path in files_of("src", "**", "*.rt"):
        for name, said in said_of(path, TYPE, "/// "):
            if {name, os.path.basename(path)} & given[crate] or os.path.basename(path) == "lib.rt":
                found["type " + name][crate].add(said)
    return {name: crates for name, crates in sorted(found.items()) if len(crates) > 1}


def listed():
    """What the list has: the crates of each name."""
    with open(LIST, encoding="utf-8") as text:
        rows = [line.split(":") for line in text if line.strip() and not line.startswith("#")]
    return {name: crates.split() for crates, names in rows for name in re.findall(r"(?:type )?\S+", names)}


def written(found):
    """The list as it should be: a line for names of the same crates."""
    names_of = collections.defaultdict(list)
    for name, crates in found.items():
        names_of[" ".join(sorted(crates))].append(name)
    return HEAD + "".join(f"{crates}: {' '.join(names)}\n" for crates, names in sorted(names_of.items()))


def main():
    found = homes()
    if "--told" in sys.argv[1:]:
        for name, crates in found.items():
            print(name, *(f"    {crate}: {'; '.join(sorted(said))}" for crate, said in crates.items()), sep="\n")
        return 0
    if "--write" in sys.argv[1:]:
        with open(LIST, "w", encoding="utf-8") as text:
            text.write(written(found))
        return 0
    known = listed()
    wrong = [name for name in sorted(found.keys() | known.keys()) if sorted(found.get(name, [])) != known.get(name)]
    for name in wrong:
        print(f"tests/names.txt: {name} stands in {sorted(found.get(name, []))} and is listed in {known.get(name, [])}")
    return 1 if wrong else 0


if __name__ == "__main__":
    sys.exit(main())
