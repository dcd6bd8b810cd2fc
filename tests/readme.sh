#!/usr/bin/env bash
# Runs every command of the code blocks of README.md, docs/FORMATS.md, docs/SPEED.md, docs/RUNNING.md and docs/LABORATORY.md as it is written there,
# and compares what it prints with what the page says, the lines of programs that a page quotes with their files, and the links of all pages with the
# tree. Takes the built program as it is; PROGRAM names another, and then nothing is built. Closes with 'N passed, M failed'.
set -u
cd "$(dirname "$0")/.." || exit 1
[ -x "${PROGRAM:-crates/euroradio/out/euroradio}" ] || { echo "the program was not built"; echo "0 passed, 1 failed"; exit 1; }
exec python3 tests/readme.py
