"""The library for C without a proof, in an archive: for archive.sh and quick.py beside it.

The toolchain's `rt try` translates programs alone. So the crate of the library is copied as a program that calls each export once; of the intermediate code that
comes of it the exports get the names that they have in C, and all else is dropped that they don't call. It checks what contracts want where it runs, and stops
where one isn't met. Nothing of it is proved.
"""
import os
import re
import shutil
import signal
import sys
import tempfile
import time

sys.dont_write_bytecode = True

from program import TOP, Building, Fault, compiler, kit_folder, rows_of_crates, used_by, written  # noqa: E402

CRATE = "er_end_c"
# Where it stands unless told: a folder that git ignores.
USUAL = os.path.join("out", "libeuroradio-unproved.a")
# What the parameters of a call are given that are no numbers; structs are lent.
LENT = {"Global": "alloc", "&[u8]": "&[]", "&mut [u8]": "&mut []", "&[CKey]": "&[]", "&[u64; 3]": "&[0; 3]", "&mut [u64; 3]": "&mut [0; 3]", "&[u8; 24]": "&[0; 24]"}


def text_of(path):
    with open(path) as text:
        return text.read()


def sources(folder):
    return "\n".join(text_of(os.path.join(folder, name)) for name in sorted(os.listdir(folder)) if name.endswith(".rt"))


def structs(text):
    """The structs that cross to C, each as a value of zeros; all but the handle stand in this source."""
    found = {}
    for it in re.finditer(r"#\[repr\(C\)\]\s*(?:#\[[^\n]*\]\s*)*pub struct (\w+) \{(.*?)\n\}", text, re.S):
        fields = re.findall(r"^    pub (\w+): ([^,\n]+),$", it[2], re.M)
        zeros = ", ".join(f"{name}: {'[0; 3]' if kind.startswith('[') else '0'}" for name, kind in fields)
        found[it[1]] = f"face::{it[1]} {{ {zeros} }}"
    return {**found, "CEnd": "handle::CEnd { open: 0, slot: slot::Slot::empty() }"}


def calls_of_exports(folder):
    """A program's main that calls each export of the sources in a folder."""
    zeros, lines = structs(text_of(os.path.join(folder, "face.rt"))), []
    for it in re.finditer(r"#\[unsafe\(no_mangle\)\]\s*pub extern \"C\" fn (\w+)\s*\((.*?)\)", sources(folder), re.S):
        given = []
        for parameter in filter(str.strip, it[2].split(",")):
            kind = parameter.partition(":")[2].strip()
            struct = re.fullmatch(r"&(?:mut )?(C\w+)", kind)
            given.append(f"&mut {struct[1].lower()}" if struct else "&mut number" if kind == "&mut u64" else "&mut small" if kind == "&mut u32" else LENT.get(kind, "0"))
        lines.append(f"    let _ = {it[1]}({', '.join(given)});\n")
    made = "".join(f"    let mut {name.lower()} = {value};\n" for name, value in zeros.items())
    return f"\nfn main(rt: HostRuntime) {{\n    let alloc = rt.alloc();\n    let mut number = 0;\n    let mut small = 0;\n{made}{''.join(lines)}    let handle::CEnd {{ open: _, slot: _ }} = cend;\n}}\n"


def named_as_in_c(text):
    """The intermediate code with each export outside of it under its name in C, and `main` inside."""
    text = re.sub(rf'^define internal (.*)@"{CRATE}::\w+::(euroradio_\w+)"\(', r"define \1@\2(", text, flags=re.M)
    text = re.sub(rf'@"{CRATE}::\w+::(euroradio_\w+)"', r"@\1", text)
    return re.sub(r"^define ([^@\n]*)@main\(", r"define internal \1@main(", text, flags=re.M)


class Archive(Building):
    """Makes the archive, by steps that are told as those of the program are."""

    crate = CRATE

    def made(self):
        self.write_tree()
        module, kit = self.translated(), kit_folder()
        made = os.path.join(self.work, "made")
        self.step(2, "naming the exports", [*compiler(kit), "-S", "-emit-llvm", "-Xclang", "-disable-llvm-passes", module, "-o", f"{made}.ll"])
        with open(f"{made}.named.ll", "w") as named:
            named.write(named_as_in_c(text_of(f"{made}.ll")))
        self.step(3, f"compiling {os.path.getsize(module) / 1e6:.0f} MB of intermediate code, with checks", [*compiler(kit), self.level, "-fPIC", "-c", f"{made}.named.ll", "-o", f"{made}.o"])
        self.step(4, "gathering", [f"{kit}/toolchain/bin/llvm-ar", "rcs", f"{made}.a", f"{made}.o"])
        return f"{made}.a"

    def write_tree(self):
        """The copy in which the library is a program."""
        top, self.top = self.top, os.path.join(self.work, "as_program")
        rows = rows_of_crates()
        used = used_by([CRATE], rows)
        for crate in used:
            for part in ("src", "specs", "proofs"):
                folder = os.path.join(top, "crates", crate, part)
                if os.path.isdir(folder):
                    shutil.copytree(folder, os.path.join(self.top, "crates", crate, part))
        shutil.copy(os.path.join(top, "HANDLES"), self.top)
        with open(os.path.join(self.top, "crates.txt"), "w") as text:
            text.writelines(f"{crate}: {' '.join(rows[crate])}\n" for crate in rows if crate in used)
        source = os.path.join(self.top, "crates", CRATE, "src")
        main = calls_of_exports(source)
        root = re.sub(r"^pub mod ", "mod ", text_of(os.path.join(source, "lib.rt")), flags=re.M)
        os.remove(os.path.join(source, "lib.rt"))
        with open(os.path.join(source, "main.rt"), "w") as text:
            text.write(root + main)


def main():
    words = sys.argv[1:]
    if len(words) > 1 or words and words[0].startswith("-"):
        print("usage: bash tests/archive.sh [OUT]", file=sys.stderr)
        return 0 if words == ["--help"] else 2
    if not shutil.which("rt"):
        print("archive.sh: there is no rt on the PATH: the toolchain is wanted, whose first page `rt doc` names", file=sys.stderr)
        return 1
    out = words[0] if words else os.path.join(TOP, USUAL)
    begin = time.monotonic()

    def tell(number, text):
        print(f"{time.monotonic() - begin:4.0f} s  {number} of 4  {text}", flush=True)

    try:
        with tempfile.TemporaryDirectory(prefix="archive-") as work:
            Archive(work, tell).build(out)
    except Fault as fault:
        if fault.said:
            print("\n".join(fault.said.strip().split("\n")[-25:]), file=sys.stderr)
        print(f"archive.sh: no archive: {fault}", file=sys.stderr)
        return 1
    print(f"{time.monotonic() - begin:4.0f} s  the library for C, of which nothing is proved: {os.path.relpath(out)}")
    return 0


if __name__ == "__main__":
    signal.signal(signal.SIGTERM, lambda number, _: sys.exit(128 + number))
    try:
        sys.exit(main())
    except KeyboardInterrupt:
        sys.exit(130)
