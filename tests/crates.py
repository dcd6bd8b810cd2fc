#!/usr/bin/env python3
"""The table of crates in docs/ARCHITECTURE.md, made from crates.txt and from the head of each crate's root.

    tests/crates.py          compares the table with the tree; each difference is printed, the status is 1 where there is one
    tests/crates.py --write  writes the table anew

Groups and their order are those of crates.txt, each up to its first colon. What a crate is, is the first sentence of its head (`//!`), without what stands in
parentheses, and up to its first colon where enough stands before it.
"""
import os
import re
import sys

TOP = os.path.dirname(os.path.dirname(os.path.abspath(__file__)))
PAGE = os.path.join(TOP, "docs", "ARCHITECTURE.md")
BEGIN, END = "<!-- made by tests/crates.py -->", "<!-- end -->"
# So many letters before a colon say what a crate is.
ENOUGH = 20


def head_of(crate):
    """The first paragraph of the head of a crate's root."""
    for root in ("lib.rt", "main.rt"):
        path = os.path.join(TOP, "crates", crate, "src", root)
        if os.path.exists(path):
            with open(path, encoding="utf-8") as text:
                head = re.search(r"^(?://! .+\n)+", text.read(), re.M)
            return " ".join(line[4:] for line in head[0].splitlines()) if head else ""
    return ""


def said_of(crate):
    """What a crate is, in one sentence."""
    sentence = re.match(r".*?[.](?=\s|$)|.*", head_of(crate))[0].rstrip(".")
    plain = re.sub(r" \([^()]*\)", "", sentence)
    before, _, _ = plain.partition(": ")
    return (before if len(before) >= ENOUGH else plain).replace("|", "\\|")


def groups():
    """(what a group is, its crates) in the order of crates.txt."""
    found = []
    with open(os.path.join(TOP, "crates.txt"), encoding="utf-8") as text:
        for line in text:
            row = re.match(r"(\w+)(?: staticlib)?:", line)
            if line.startswith("# "):
                found.append((line[2:].strip().rstrip(".").partition(": ")[0], []))
            elif row:
                found[-1][1].append(row[1])
    return [(what, crates) for what, crates in found if crates]


def table():
    """The lines of the table."""
    lines = ["| Crate | What it is |", "|---|---|"]
    for what, crates in groups():
        lines += [f"| | **{what}** |", *(f"| {crate} | {said_of(crate)} |" for crate in crates)]
    return lines


def faults(write=False):
    """What in the page isn't as the tree has it."""
    made = "\n".join([BEGIN, *table(), END])
    with open(PAGE, encoding="utf-8") as file:
        text = file.read()
    begin, end = text.find(BEGIN), text.find(END)
    if begin < 0 or end < begin:
        return ["docs/ARCHITECTURE.md has no place for the table of crates"]
    if write:
        with open(PAGE, "w", encoding="utf-8") as file:
            file.write(text[:begin] + made + text[end + len(END) :])
        return []
    if text[begin : end + len(END)] == made:
        return []
    old = set(text[begin : end + len(END)].split("\n"))
    return [f"docs/ARCHITECTURE.md hasn't this row: {row}" for row in made.split("\n") if row not in old] or ["docs/ARCHITECTURE.md has rows of crates too many"]


def main():
    found = faults("--write" in sys.argv[1:])
    print("\n".join(found + [f"{sum(len(crates) for _, crates in groups())} crates, {len(found)} failed"]))
    return 1 if found else 0


if __name__ == "__main__":
    sys.exit(main())
