#!/usr/bin/env bash
# The tools of the laboratory: the decoder in tools/decoding against vectors of the standards' tables; captures by tools/pcap, read back octet by
# octet, and by tshark where it is installed; the parts of recordings by tools/recording, each against a replay of it; what a relay prints, and how long
# T1 ran; and the decoder against the built program, on every frame of every drill in tests/rows and examples and on altered frames. PROGRAM names another
# program than the built one. Closes with 'N passed, M failed'.
set -u
cd "$(dirname "$0")/.." || exit 1
python3 tests/lab/all.py "${PROGRAM:-crates/euroradio/out/euroradio}"
