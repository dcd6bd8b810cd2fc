#!/usr/bin/env bash
# Wrong designs of the code, and what refuses them with no proof: bash tests/designs.sh [--all] [NAME..]
# Each tests/designs/NAME.patch changes code, some the definition with it; its first lines say what is wrong, what that breaks, and of a definition by which
# law or known answer a proof refuses it, which isn't tried here. Each is applied to a copy, the program is compiled unproved as quick.sh does, and
# tests/rows.sh runs on it; where no row refuses it, the other scripts and then the tests in memory, one by one until one does. A patch of which the head says
# that no run can see it, and why, is applied and compiled alone. --all runs all of them at each.
# Outside the gate: two processor minutes and more a patch. DESIGNS_AT_ONCE says how many stand beside each other, one where it isn't set. PROGRAM names the
# unchanged program, for scripts of sockets alone; else it is compiled where one of them refuses a patch.
# The status is 0 exactly where each patch still applies and compiles, and each that a run can see is refused.
set -u
cd "$(dirname "$0")/.." || exit 1
command -v rt > /dev/null || { echo "designs.sh: there is no rt, so nothing can be compiled"; exit 1; }
exec python3 tests/designs.py "$@"
