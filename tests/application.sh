#!/usr/bin/env bash
# The examples of an application against a fake of the loop's side of the socket: what they say to what they are told, in pieces of any size, to a loop that is
# slow, and to one that comes back; and with a broker between three of them and one centre, where mosquitto and python3-paho-mqtt are installed. Then, where the
# program is built, applications of all kinds at the socket of `serve` and `call`, with trains at its port: what each hears, that none is lost, and that each
# recording is what its replay prints. Takes the built program as it is; PROGRAM names another. Closes with 'N passed, M failed'.
set -u
cd "$(dirname "$0")/.." || exit 1
program=${PROGRAM:-$PWD/crates/euroradio/out/euroradio}
[ -x "$program" ] || program=
umask 077
work=$(mktemp -d) || exit 1
trap 'rm -rf "$work"' EXIT
timeout 900 python3 tests/application.py "$work" ${program:+"$program"}
