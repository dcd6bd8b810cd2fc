#!/usr/bin/env bash
# The pages' names and counts against the tree: each name in backticks of README.md and docs/*.md must stand in it, and what the pages count must be
# as many. And that they can be read: how long sentences, cells and lines are, and where days stand; and the parts that scripts make. `tests/pages.sh --names`
# prints what names are looked for. Closes with 'N passed, M failed'.
set -u
cd "$(dirname "$0")/.." || exit 1
exec python3 tests/pages.py "$@"
