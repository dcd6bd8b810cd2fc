#!/usr/bin/env python3
"""What must be believed, by claim: the table of docs/CLAIMS.md, made from the imports of the definitions.

    tests/closures.py          compares the table in docs/CLAIMS.md with the tree; each difference is printed, the status is 1 where there is one
    tests/closures.py --write  writes the table anew

A claim is read from a file of specs/ on, or from two: these and all that they import, without what the prover declares of code and without the kit's
library. Of each file those lines count that aren't imports, comments or blank. Known answers don't count: no definition imports their files. It
also fails where a file that is to be believed imports one that readers may skip, and where a clause of an exported function names one that ties
code to a definition.
"""
import os
import re
import sys

CLAIMS = [
    ("Authentic messages and peers", "safety_pair_laws/specs/Authentic"),
    ("The cipher", "des_block/specs/Triple"),
    ("The MAC", "cbc_mac/specs/Mac"),
    ("One side of a safe connection", "safety_automaton/specs/Safety"),
    ("A station", "hdlc_station_model/specs/Calls"),
    ("Two stations over two lines", "hdlc_pair_laws/specs/Laws"),
    ("A transport connection", "x224_class2/specs/Transport"),
    ("An end of four layers", "er_end_model/specs/Ends"),
    ("Two ends over two lines", "er_end_pair_laws/specs/Laws"),
    ("Key files", "key_store/specs/KeyFiles"),
    ("Traces and their replay", "trace_model/specs/Replays"),
    ("**The headline**: every list of steps, each link (`Holds`)", "drill_model/specs/Headline"),
    ("The headline with what is printed of it", "drill_model/specs/Headline", "drill_model/specs/Printing"),
    ("All statuses of `run` on a file", "er_program/specs/Runs"),
    ("The loop: `serve` and `dial`", "readiness_loop/specs/Claims"),
    ("The loop's journal: `lawful`", "loop_model/specs/Lawful"),
    ("`serve` and `call` of `run`", "er_serving/specs/LineRuns"),
    ("Recorded before it goes, of `run`", "er_program/specs/RecordedRuns"),
    ("`audit` of `run`", "er_program/specs/AuditRuns"),
    ("`run`: every status of every command", "er_program/specs/Statuses"),
    ("What is heard of a tapped stream, and the verdicts", "tap_model/specs/EndTexts"),
    ("The end of a stream", "tap_model/specs/StreamEnds"),
    ("What an end was given is heard", "tap_model/specs/Given"),
    ("An audit finds what was accepted", "tap_laws/specs/Worlds"),
    ("One end's audit", "tap_laws/specs/OneEnd"),
    ("An audit on any line", "tap_laws/specs/AnyLine"),
    ("What an audit calls good was sent", "tap_laws/specs/Genuine"),
    ("What an end promises", "er_end_promises/specs/Verified", "er_end_promises/specs/AfterRelease", "er_end_promises/specs/Order",
     "er_end_promises/specs/Sending"),
    ("An outside whose recording goes first", "recorded/specs/Recordings"),
    ("What is counted of a journal", "counted/specs/Counting"),
    ("Recorded before it goes, inside", "recorded_runs/specs/Inside"),
    ("What a relay did", "relay_loop/specs/Laws"),
    ("`serve` and `call` with an application", "application_command/specs/ApplicationRuns"),
    ("A loop with an application", "application_model/specs/Laws"),
    ("The stack's ends under an application", "application_ends/specs/Laws"),
    ("What a loop with an application did", "application_serving/specs/Laws"),
    ("Calls on one handle in C", "er_end_c/specs/Runs"),
]
KINDS = ("-- Representation:", "-- Contract:", "-- Lemmas:")
BEGIN, END = "<!-- made by tests/closures.py -->", "<!-- end -->"
IMPORT = re.compile(r"^\s*(?:pub )?use Rattle\.(\w+)\.specs\.([\w.]+?)(?:\.\{.*)?(?: as \w+)?$")


def spec_files():
    """Each definition file by its name `crate/specs/File`, as a list of lines."""
    files = {}
    for crate in sorted(os.listdir("crates")):
        folder = f"crates/{crate}/specs"
        for name in sorted(os.listdir(folder)) if os.path.isdir(folder) else []:
            if name.endswith(".antt") and name != "Lib.antt":
                with open(f"{folder}/{name}", encoding="utf-8") as it:
                    files[f"{crate}/specs/{name[:-5]}"] = it.read().split("\n")
    return files


def imports_of(lines, files):
    """The definition files of this repository that a file imports, without what the prover declares of code."""
    found = set()
    for line in lines:
        match = IMPORT.match(line)
        if match and not match[2].startswith("declared"):
            name = f"{match[1]}/specs/{match[2].split('.')[0]}"
            if name in files:
                found.add(name)
    return found


def closure(starts, imports):
    """All files that some files need, themselves among them."""
    seen, left = set(), list(starts)
    while left:
        name = left.pop()
        if name not in seen:
            seen.add(name)
            left += imports[name]
    return seen


def counted(lines):
    """The number of lines that say something."""
    return sum(1 for it in lines if it.strip() and not it.lstrip().startswith(("--", "use ", "pub use ", "pub mod ", "mod ")))


def kind_of(lines):
    return next((it for it in KINDS if lines[0].startswith(it)), None)


def table(files, imports):
    """The lines of the table."""
    rows = ["| Claim | Begin with | Lines | Files |", "|---|---|---|---|"]
    for claim, *starts in CLAIMS:
        needed = closure(starts, imports)
        lines = sum(counted(files[it]) for it in needed)
        begin = ", ".join(f"`{it}`" for it in starts)
        rows.append(f"| {claim} | {begin} | {lines:,} | {len(needed)} |")
    return rows


def skipped(files, imports):
    """Each import of a file that readers may skip by one that is to be believed."""
    return [
        f"{name} is to be believed, and imports {it}, whose first line begins with `{kind_of(files[it])}`"
        for name in files
        if kind_of(files[name]) is None
        for it in sorted(imports[name])
        if kind_of(files[it]) in (KINDS[0], KINDS[2])
    ]


EXPORTED = re.compile(r"^pub use [\w:]+::(?:\{([^}]*)\}|(\w+));", re.M)
GHOST = re.compile(r"^ghost use Rattle\.(\w+)\.specs\.(\w+)\.\{([^}]*)\};", re.M)
FUNCTION = re.compile(r"^(    )?pub fn (\w+).*?^\1?\{", re.M | re.S)


def exported_of(crate):
    """The names that a crate's root exports, and its public modules."""
    with open(f"crates/{crate}/src/lib.rt", encoding="utf-8") as it:
        root = it.read()
    names = {name.strip().split(" ")[0] for many, one in EXPORTED.findall(root) for name in (many or one).split(",")}
    return names, set(re.findall(r"^pub mod (\w+);", root, re.M))


def named(files):
    """Each clause of an exported function that names something of a file that ties code to a definition."""
    found = []
    for crate in sorted(os.listdir("crates")):
        if not os.path.exists(f"crates/{crate}/src/lib.rt"):
            continue
        names, modules = exported_of(crate)
        for folder, _, sources in os.walk(f"crates/{crate}/src"):
            for source in sorted(it for it in sources if it.endswith(".rt")):
                with open(f"{folder}/{source}", encoding="utf-8") as it:
                    text = it.read()
                ties = {
                    word.strip().split(" as ")[-1]: f"{match[0]}/specs/{match[1]}"
                    for match in GHOST.findall(text)
                    if kind_of(files.get(f"{match[0]}/specs/{match[1]}", [""])) == KINDS[0]
                    for word in match[2].split(",")
                }
                for match in FUNCTION.finditer(text) if ties else []:
                    owner = re.findall(r"^impl(?:<[^{]*?>)? (?:[\w<>, ]+ for )?(\w+)", text[: match.start()], re.M)
                    item = owner[-1] if match[1] and owner else match[2]
                    if item not in names and source[:-3] not in modules:
                        continue
                    for word, file in ties.items():
                        if re.search(rf"(?<![\w.]){re.escape(word)}(?!\w)", match[0]):
                            found.append(f"crates/{crate}/src/{source}: a clause of `{item}` names {word} of {file}, whose first line says that none does")
    return found


def main():
    os.chdir(f"{os.path.dirname(os.path.abspath(__file__))}/..")
    files = spec_files()
    imports = {name: imports_of(lines, files) for name, lines in files.items()}
    made = [BEGIN, *table(files, imports), END]
    faults = skipped(files, imports) + named(files)
    with open("docs/CLAIMS.md", encoding="utf-8") as it:
        text = it.read()
    begin, end = text.find(BEGIN), text.find(END)
    if begin < 0 or end < begin:
        faults.append("docs/CLAIMS.md has no place for the table")
    elif "--write" in sys.argv[1:]:
        with open("docs/CLAIMS.md", "w", encoding="utf-8") as it:
            it.write(text[:begin] + "\n".join(made) + text[end + len(END) :])
    elif text[begin : end + len(END)] != "\n".join(made):
        old = set(text[begin:end].split("\n"))
        faults += [f"docs/CLAIMS.md hasn't this row: {it}" for it in made[1:-1] if it not in old] or ["docs/CLAIMS.md has rows too many"]
    print("\n".join(faults + [f"{len(CLAIMS)} claims, {len(faults)} failed"]))
    return 1 if faults else 0


if __name__ == "__main__":
    sys.exit(main())
