#!/usr/bin/env bash
# Records the ends of each drill of level full in examples/ and tests/rows/ as traces, and holds `replay` of each trace against what the drill
# told. Takes the built program as it is; PROGRAM names another. Closes with 'N drills, M traces, K failed'.
set -u
cd "$(dirname "$0")/.." || exit 1
program=${PROGRAM:-$PWD/crates/euroradio/out/euroradio}
[ -x "$program" ] || { echo "the program was not built"; exit 1; }
command -v python3 > /dev/null || { echo "python3 is wanted, to record"; exit 0; }

drills=0
traces=0
failed=0
while IFS= read -r drill; do
  if answer=$(python3 tests/drill-to-trace.py "$program" "$drill"); then
    case $answer in
      skipped:*) ;;
      *)
        drills=$((drills + 1))
        traces=$((traces + ${answer%% *}))
        ;;
    esac
  else
    failed=$((failed + 1))
    echo "$drill: $answer"
  fi
done < <(grep -rlE '^drill 1 full' examples tests/rows)
echo "$drills drills, $traces traces, $failed failed"
[ "$failed" -eq 0 ] && [ "$traces" -gt 0 ]
