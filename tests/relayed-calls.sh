#!/usr/bin/env bash
# A hundred calls to a `serve`, each through a relay with a random script of its own: what was given is the function of the script and of what came, as the model in relay_model.py
# has it; both recordings have what came and was given; the audit of what the relay gave has what each end accepted; and where the line only loses, repeats and delays, each echo
# comes in order. Takes the built program, or the one that PROGRAM names; words are how many calls and the seed of the scripts. Closes with 'N passed, M failed'.
set -u
cd "$(dirname "$0")/.." || exit 1
program=${PROGRAM:-$PWD/crates/euroradio/out/euroradio}
[ -x "$program" ] || { echo "the program was not built"; exit 1; }
exec python3 tests/relayed-calls.py "$program" "$@"
