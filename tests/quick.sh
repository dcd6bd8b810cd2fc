#!/usr/bin/env bash
# What can be tried without a proof, from a fresh clone, in some five minutes on two slow processors: bash tests/quick.sh
# Compiles every crate with the toolchain's checks, runs every test, and each row and script of tests/ that needs no proved library, on the program
# as it is compiled unproved; all processors that it may use are kept busy. At its end it says what it leaves to the gate. Words name crates or
# scripts, and then only these are tried: bash tests/quick.sh hdlc_fcs rows; of words that name neither the status is 2. Closes with 'N passed, M failed'.
set -u
cd "$(dirname "$0")/.." || exit 1
command -v rt > /dev/null || { echo "quick.sh: there is no rt, so nothing can be compiled"; echo "0 passed, 1 failed"; exit 1; }
exec python3 tests/quick.py "$@"
