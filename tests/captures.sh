#!/usr/bin/env bash
# Captures of real lines: twenty calls over loopback sockets, captured by tshark, become twenty links by one command, and an audit calls each text good; captures made packet by packet, with every link type that is
# read, retransmissions, overlaps, other orders, numbers that wrap and pieces that are missing, become the tap of the plain one, or what they lack is told; altered captures lead to no traceback; what `euroradio bits`
# prints of both directions becomes that tap too. Takes the built program, or the one that PROGRAM names. Without tshark, or where it may not capture, the calls are skipped. Closes with 'N passed, M failed'.
set -u
cd "$(dirname "$0")/.." || exit 1
exec python3 tests/captures.py "${PROGRAM:-crates/euroradio/out/euroradio}"
