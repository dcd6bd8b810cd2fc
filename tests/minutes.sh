#!/usr/bin/env bash
# Outside the gate: samples a running `rt ci` of this machine each second until it ends, and prints the processor minutes of each crate by stage, the dearest
# first, and the machine's speed. With words, runs these (as `rt ci`) and samples them: bash tests/minutes.sh [COMMAND..]
set -u
exec python3 "$(dirname "$0")/minutes.py" "$@"
