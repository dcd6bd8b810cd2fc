#!/usr/bin/env bash
# Six hundred calls over three `serve` processes behind HAProxy, by the very file examples/running/haproxy.cfg at other ports, beside clients that
# send nothing or no frame, and then with one serve gone. Takes the built program as it is; PROGRAM names another. Where HAProxy isn't installed it says 'skipped'.
# Closes with 'N checks, M failed'.
set -u
cd "$(dirname "$0")/.." || exit 1
program=${PROGRAM:-$PWD/crates/euroradio/out/euroradio}
haproxy=$(PATH=$PATH:/usr/sbin:/usr/local/sbin command -v haproxy) || { echo "skipped: haproxy isn't installed"; exit 0; }
[ -x "$program" ] || { echo "the program was not built"; exit 1; }
exec python3 tests/haproxy.py "$program" "$haproxy"
