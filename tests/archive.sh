#!/usr/bin/env bash
# Makes the library for C without a proof, compiled with the toolchain's checks, in an archive: bash tests/archive.sh [OUT]
# OUT is its name; without one it is out/libeuroradio-unproved.a at the top, which git ignores. Nothing of it is proved: it is to try the library by, and for tests, and
# never to be shipped. `rt lib` in crates/er_end_c makes the proved library.
# Ends with status 0 where the archive is made, 1 where it isn't, 2 where the words are wrong.
set -u
command -v python3 > /dev/null || { echo "archive.sh: there is no python3"; exit 1; }
exec python3 "$(dirname "$0")/archive.py" "$@"
