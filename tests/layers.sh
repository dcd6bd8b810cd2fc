#!/usr/bin/env bash
# Rules of the repository that the prover doesn't know. Each line that breaks one is printed; the status is 1 where there is one.
set -u
cd "$(dirname "$0")/.." || exit 1
status=0

# The sources, without what rt makes.
sources() {
  find crates -name out -prune -o \( -name '*.rt' -o -name '*.antt' \) -print
}

# Layers meet by public contracts and public laws: no crate cites another crate's proofs, but bit_lists', which is lemmas alone.
names=$(for crate in crates/*/; do basename "$crate"; done | grep -vx bit_lists | paste -sd'|')
for crate in crates/*/; do
  name=$(basename "$crate")
  if sources | grep "^crates/$name/" | xargs -r grep -nE "Rattle\.($names)\.proofs|\b($names)::proofs" /dev/null |
    grep -vE "Rattle\.$name\.proofs|\b$name::proofs"; then
    status=1
  fi
done

# Want of memory is told by the allocator, and for files by the system: their errors become `NoMemory` in er_base, and no other crate
# names them, but three small programs that end with the system's error, key_store where TOML's own error tells want of memory, and the tests of er_base.
if sources | xargs -r grep -nE '\b(AllocError|AllocFailed)\b|::OutOfMemory\b' /dev/null |
  grep -vE '^crates/(er_base/|test_layers/src/base.rt|key_store/src/want.rt|bench/src/[a-z]+.rt|(test_tpdus|embedded_end)/src/main.rt)'; then
  status=1
fi

# The program's main makes the real objects and calls what is proved of them: it stays short enough to be read whole.
if [ "$(wc -l < crates/euroradio/src/main.rt)" -gt 300 ]; then
  echo "crates/euroradio/src/main.rt has more than 300 lines"
  status=1
fi

# The loop writes its header alone as plain octets: the lines of each event are recorded with what they count.
if sources | grep -E '^crates/(loop_session|loop_io|readiness_loop)/src/' | xargs -r grep -nE '\.write\(|\bwrite_lines\(' /dev/null |
  grep -vE '^crates/loop_session/src/event_lines.rt:[0-9]+: +match outside\.write\(lines\) \{$' |
  grep -vE '^crates/readiness_loop/src/serving.rt:[0-9]+: +write_lines\(line\.as_slice\(\), outside\)$'; then
  echo "the loop writes what isn't its header without a tally"
  status=1
fi

# crates.txt is the map: a crate lists the libraries that its own files name, and no other.
if ! python3 - << 'PY'
import os, re, sys
status = 0
for line in open("crates.txt"):
    row = re.match(r"(\w+)(?: staticlib)?:(.*)$", line)
    if row is None:
        continue
    text = ""
    for folder, _, files in os.walk("crates/" + row.group(1)):
        if "/out/" not in folder + "/":
            text += "".join(open(os.path.join(folder, file), encoding="utf-8").read() for file in files if file.endswith((".rt", ".antt")))
    for library in row.group(2).split():
        if not re.search(rf"\bRattle\.{library}\.|\b{library}::", text):
            print(f"crates.txt: {row.group(1)} lists {library}, which no file of it names")
            status = 1
    for library in sorted(set(re.findall(r"\bRattle\.(\w+)\.", text)) - set(row.group(2).split()) - {row.group(1)}):
        if os.path.isdir("crates/" + library):
            print(f"crates.txt: {row.group(1)} names {library}, which it doesn't list")
            status = 1
sys.exit(status)
PY
then
  status=1
fi

# One word, one meaning: a public name of specs/ stands in one crate, but for those of tests/names.txt.
python3 tests/names.py || status=1

# Each public law says in a comment what it claims, which docs/CLAIMS.md tells in short.
python3 tests/laws.py > /dev/null || status=1

# One manner: what a file is stands in `//!`, a section begins with `-- ----`, an attribute stands below the comment of its item.
if sources | grep '/src/.*\.rt$' | xargs -r awk 'FNR == 1 && /^\/\/ / { print FILENAME ": begins with //"; found = 1 }
    attribute && /^ *\/\// { print FILENAME ":" FNR ": an attribute above the comment"; found = 1 }
    { attribute = /^ *#\[/ } END { exit !found }'; then
  status=1
fi
if sources | grep '\.antt$' | xargs -r grep -nE '^-- [^-].* -{6,}$' /dev/null; then
  status=1
fi

[ "$status" -eq 0 ] || echo "a rule of the layers is broken in the lines above"
exit "$status"
