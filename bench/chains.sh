#!/bin/sh
# Measures what MACs side by side would gain: one, two and four independent texts whose DES rounds go in turns, in a prototype in C that has the tables
# and the form of crates/des_block and crates/cbc_mac: sh bench/chains.sh
# For texts of 120 and of 1,006 octets (messages of 114 and 1,000 with what is sealed beside them) it prints the MACs a second of processor time, the best of
# nine rounds in turns, and how many times as many they are as those of one chain. Nothing is asserted, and nothing of the library is run. Wants python3 and
# a C compiler; CC names another one than cc.
set -eu
cd "$(dirname "$0")/.."

leave() {
    echo "chains.sh: $1; nothing is measured"
    exit 0
}

compiler=${CC:-cc}
command -v python3 >/dev/null || leave "python3 is wanted, to copy the tables"
command -v "$compiler" >/dev/null || leave "there is no C compiler"

work=$(mktemp -d)
trap 'rm -rf "$work"' EXIT
python3 - > "$work/tables.h" << 'PY'
import re


def table(name, kind, rows, columns, path):
    """A table of the crate as one of C."""
    with open(f"crates/des_block/src/{path}.rt") as file:
        text = file.read().partition("= [")[2]
    entries = [word.replace("_", "") for word in re.findall(r"0x[0-9a-f_]+", text)]
    assert len(entries) == rows * columns, (path, len(entries))
    print(f"static const {kind} {name}[{rows}][{columns}] = {{")
    for row in range(rows):
        print("    {" + ", ".join(entries[row * columns : (row + 1) * columns]) + "},")
    print("};")


table("spread_boxes", "uint32_t", 8, 256, "spread_boxes")
table("c_choices", "uint64_t", 4, 128, "c_choices")
table("d_choices", "uint64_t", 4, 128, "d_choices")
PY
"$compiler" -O3 -Wall -Wextra -I "$work" -o "$work/chains" bench/chains.c
"$work/chains"
