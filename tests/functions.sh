#!/usr/bin/env bash
# Outside the gate: looks at a running `rt ci` of this machine each second until it ends, and prints which functions took most, and which part of each:
# bash tests/functions.sh. With words, runs these (as `rt check` in a crate's folder) and looks at them: bash tests/functions.sh [COMMAND..]
set -u
exec python3 "$(dirname "$0")/functions.py" "$@"
