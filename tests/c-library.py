"""For c-face.sh beside it: c-library.py OUT.a [--backend B] [--target T], once for each of the libraries that are wanted.

Builds the library for C over the libraries of the crates below it that `rt ci` proved and left in crates/*/out, so that crates/er_end_c alone is checked: once
for each target, kept in the folder of OUT.a for the next call, and compiled by each. Ends with 3 where `rt ci` left none.
"""
import os
import subprocess
import sys

TOP = os.path.dirname(os.path.dirname(os.path.abspath(__file__)))
CRATE = "er_end_c"


def rows_of_crates():
    rows = {}
    with open(os.path.join(TOP, "crates.txt")) as text:
        for line in text:
            head, colon, uses = line.partition("#")[0].partition(":")
            if colon:
                rows[head.split()[0]] = uses.split()
    return rows


def below(crate, rows, found):
    """The repository's crates that a crate uses, each behind those that it uses itself."""
    for used in rows[crate]:
        if used in rows and used not in found:
            below(used, rows, found)
            found.append(used)
    return found


def library(crate):
    return os.path.join(TOP, "crates", crate, "out", "rlib", f"{crate}.rlib")


def words_of(kit, rows, used):
    words = ["--crate-name", CRATE, "src/lib.rt", "--extern", f"std={kit}/rlibs/std.rlib"]
    for name in rows[CRATE]:
        words += ["--extern", f"{name}={library(name) if name in rows else f'{kit}/rlibs/{name}.rlib'}"]
    for crate in used:
        words += ["-L", f"dependency={os.path.dirname(library(crate))}"]
    return [*words, "-L", f"dependency={kit}/rlibs", "--antt-project", f"{kit}/rattle/logic/antt-project.json", "--links", f"{CRATE}=", "--crate-type", "staticlib"]


def main():
    into, flags = os.path.abspath(sys.argv[1]), sys.argv[2:]
    kit = os.path.dirname(subprocess.run(["rt", "doc"], capture_output=True, text=True, check=True).stdout.strip())
    rows = rows_of_crates()
    used = below(CRATE, rows, [])
    if not all(os.path.isdir(library(crate)) for crate in used):
        return 3
    target = flags[flags.index("--target") :][:2] if "--target" in flags else []
    words, checked = words_of(kit, rows, used) + target, os.path.join(os.path.dirname(into), "-".join(["checked", *target[1:]]))
    flags = [word for word in flags if word not in target]
    how = {"cwd": os.path.join(TOP, "crates", CRATE), "stdin": subprocess.DEVNULL}
    if not os.path.exists(checked):
        jobs = str(max(1, len(os.sched_getaffinity(0)) // 2))
        status = subprocess.run([f"{kit}/bin/rattle", "check", *words, "--logic-built", f"{kit}/logic_built", "--jobs", jobs, "-o", checked], **how).returncode
        if status:
            return status
    flags = flags if "--backend" in flags else [*flags, "--backend", "llvm"]
    return subprocess.run([f"{kit}/bin/rattle", "build", *words, "--crate-checked", checked, "--toolchain", f"{kit}/toolchain", *flags, "-o", into], **how).returncode


if __name__ == "__main__":
    sys.exit(main())
