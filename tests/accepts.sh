#!/usr/bin/env bash
# Lets calls of the system fail under the built program while it serves over a loopback socket: accepts, the registering of a connection, a read
# and a write that a signal cuts short. Takes the built program as it is; PROGRAM names another. Closes with 'N checks, M failed', or says 'skipped' where strace isn't
# there or may not trace.
set -u
cd "$(dirname "$0")/.." || exit 1
program=${PROGRAM:-$PWD/crates/euroradio/out/euroradio}
[ -x "$program" ] || { echo "the program was not built"; exit 1; }
strace -f -o /dev/null -e inject=accept4:error=EMFILE:when=1 true 2>/dev/null || { echo "skipped: no strace that may trace"; exit 0; }
exec python3 tests/accepts.py "$program"
