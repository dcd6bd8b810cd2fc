#!/usr/bin/env bash
# Gives mutants of small texts and captures to each tool of the laboratory (tools/tap, pcap, chart, recording), by a generator with a fixed seed: what
# drills and a relay print, beside their drill files, traces, taps, and captures of them, with octets, words, lines and blocks altered, left out, doubled and moved.
# A tool must end soon, with status 0 or 1, and with no traceback; what it tells is lines without control octets; what it prints is whole: a page that
# is XML, a capture, a tap, a recording of which nothing is left out. Needs no program. bash tests/fuzz-tools.sh [COUNT [SEED]]: so many mutants (200).
# Closes with 'N passed, M failed'.
set -u
cd "$(dirname "$0")/.." || exit 1
exec python3 tests/fuzz-tools.py "$@"
