#!/usr/bin/env bash
# Makes the program without a proof, compiled with the toolchain's checks, in a file: bash tests/program.sh [--optimised] [OUT]
# OUT is its name, or a folder for it; without one it is out/euroradio at the top, which git ignores. Tells what it is doing every few seconds, and at its
# end where the program is. Nothing of it is proved: it is for a first look and for tests. `rt run` in crates/euroradio makes the proved program.
# It is made quickly and runs slowly: with --optimised it takes half a minute more to make, and runs some forty times as fast.
# Ends with status 0 where the program is made, 1 where it isn't, 2 where the words are wrong.
set -u
command -v python3 > /dev/null || { echo "program.sh: there is no python3"; exit 1; }
exec python3 "$(dirname "$0")/program.py" "$@"
