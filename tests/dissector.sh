#!/usr/bin/env bash
# tools/euroradio.lua in tshark, on captures that tools/pcap makes: of examples, of a drill at modulo 128, and of faults of every layer. The lines
# of the list, marks and some whole frames are compared with the texts in tests/dissector/; every frame must be read, every field seen, and no
# octet may lead to an error of the script. The reasons of the faults are also held against what the ends of a drill of the same frames do. Then the
# same frames as octets of TCP connections, cut and joined, must have the same lines. Takes
# the built program as it is, or the one that PROGRAM names. Installs tshark where it is missing and the system's packages can be had, and skips
# all where they can't. Closes with 'N passed, M failed'.
set -u
cd "$(dirname "$0")/.." || exit 1
program=${PROGRAM:-$PWD/crates/euroradio/out/euroradio}
texts=tests/dissector

install_tshark() {
  apt-get update -qq && DEBIAN_FRONTEND=noninteractive apt-get install -y -qq tshark
}

command -v tshark > /dev/null || install_tshark > /dev/null 2>&1
if ! command -v tshark > /dev/null; then
  echo "skipped: tshark isn't installed and can't be had here"
  echo "0 passed, 0 failed"
  exit 0
fi
if [ ! -x "$program" ]; then
  echo "the program was not built"
  echo "0 passed, 1 failed"
  exit 1
fi

passed=0
failed=0
work=$(mktemp -d)
trap 'rm -rf "$work"' EXIT
export HOME=$work XDG_CONFIG_HOME=$work LC_ALL=C.UTF-8

# Counts what was tried: $1 its name, $2 what was got, $3 what is wanted.
judge() {
  if [ "$2" = "$3" ]; then
    passed=$((passed + 1))
  else
    failed=$((failed + 1))
    echo "$1:"
    diff <(echo "$2") <(echo "$3") | head -20
  fi
}

# Runs tshark with the dissector on the capture $1; words follow.
look() {
  local capture=$1
  shift
  tshark -X lua_script:tools/euroradio.lua -r "$work/$capture" "$@" 2> "$work/told"
}

# The lines of the list: interface, sender and what the frame is.
lines() {
  look "$@" -o 'gui.column.format:"Link","%Cus:frame.interface_name","From","%s","Line","%i"' | sed 's/  */ /g; s/^ //'
}

# Whole frames, as the middle pane shows them.
frames() {
  look "$@" -O euroradio | grep -v '^Frame '
}

# The line of each frame that bears marks, and its marks.
marks() {
  look "$@" -O euroradio | sed -nE '
    /^EuroRadio/{ s/^[^:]*: //; h; }
    s/^ *\[Expert Info \(([A-Za-z]+)\/[A-Za-z]+\): (.*)\]$/    \1: \2/
    /^    (Error|Note|Chat): /{ x; p; x; p; }'
}

# Captures the text $1 as $2, which must be read whole.
capture() {
  judge "$2: what the capture leaves out" "$(tools/pcap < "$1" 2>&1 > "$work/$2")" ""
}

# The example $1 with its frames shown.
shown() {
  if grep -q '^set show 1' "examples/$1.drill"; then
    cat "examples/$1.drill"
  else
    sed 's/^drill 1 full$/&\nset show 1/' "examples/$1.drill"
  fi
}

# What must hold of the capture $1 of frames that ends sent: its lines are those of the text $2, at the second of two passes too, each packet is
# read, its sender is known, and nothing is malformed. Preferences follow.
judge_session() {
  local capture=$1 text=$2
  shift 2
  judge "$text: lines" "$(lines "$capture" "$@")" "$(cat "$texts/$text.lines")"
  judge "$text: lines of two passes" "$(lines "$capture" -2 "$@")" "$(cat "$texts/$text.lines")"
  judge "$text: packets unread" "$(look "$capture" "$@" -Y '!euroradio.frame || !euroradio.sender || euroradio.octets || _ws.malformed')" ""
  judge "$text: errors of the script" "$(look "$capture" "$@" -V | grep 'Lua Error'; grep -i 'lua' "$work/told")" ""
}

for name in whole-session lossy-session releases-of-each-kind; do
  shown "$name" > "$work/$name.drill"
  "$program" drill "$work/$name.drill" > "$work/$name.printed"
  capture "$work/$name.printed" "$name"
  judge_session "$name" "$name"
done
capture examples/recorded-session.trace recorded-session
judge_session recorded-session recorded-session
"$program" drill "$texts/modulo-128.drill" > "$work/modulo-128.printed"
capture "$work/modulo-128.printed" modulo-128
judge_session modulo-128 modulo-128 -o euroradio.modulo_128:TRUE
shown lossy-line > "$work/lossy-line.drill"
"$program" drill "$work/lossy-line.drill" > "$work/lossy-line.printed"
capture "$work/lossy-line.printed" lossy-line
judge_session lossy-line lossy-line -o euroradio.link_only:TRUE

# A drill of level safe, whose records are SaPDUs.
"$program" drill examples/set-up.drill > "$work/set-up.printed"
capture "$work/set-up.printed" set-up
judge "set-up: lines" "$(lines set-up)" "$(cat "$texts/set-up.lines")"
judge "set-up: errors of the script" "$(look set-up -V | grep 'Lua Error')" ""

# In a capture without interfaces and directions the address tells the sender.
if command -v editcap > /dev/null; then
  editcap -F pcap "$work/whole-session" "$work/whole-session.pcap"
  judge "without directions" "$(lines whole-session.pcap | sed 's/^/link 1 /')" "$(cat "$texts/whole-session.lines")"

  # A capture that begins in the midst, of a message too: nothing is marked that can't be known.
  for first in 3 4 5 6 9 12 15 16 20; do
    editcap "$work/whole-session" "$work/midst" "1-$first"
    judge "behind packet $first" "$(lines midst -Y '!euroradio.release' | tail -n +8)" \
      "$(tail -n "+$((first + 8))" "$texts/whole-session.lines")"
  done
fi

# An answer of which the set-up frame wasn't captured, and then a session from its beginning, and another one behind its end.
cat > "$work/answer.tap" << 'TAP'
tap 1
link 1 5 9 0
octets 1 r 7e017383577e
octets 1 e 7e013febdf7e7e013febdf7e
octets 1 r 7e017383577e
octets 1 e 7e0100010009ef0000000120c0010742000005010102030405060708f7007e
octets 1 e 7e015381767e
octets 1 r 7e017383577e
octets 1 e 7e013febdf7e
octets 1 e 7e0100010009ef0000000120c0010742000005010102030405060708f7007e
TAP
capture "$work/answer.tap" answer
judge "set up anew" "$(lines answer)" "link 1 RBC UA F (no set-up)
link 1 engine SABM P
link 1 engine SABM P
link 1 RBC UA F
link 1 engine I 0 0 · CR credit 15 size 128 · AU1 of 5
link 1 engine DISC P ! 1.4
link 1 RBC UA F (ignored)
link 1 engine SABM P
link 1 engine I 0 0 · CR credit 15 size 128 · AU1 of 5"

judge "whole frames" "$(frames whole-session -Y 'frame.number in {1, 4, 6, 8, 17, 33}')" "$(cat "$texts/whole-session.frames")"
judge "whole frames at modulo 128" "$(frames modulo-128 -o euroradio.modulo_128:TRUE -Y 'frame.number in {1, 28, 29}')" \
  "$(cat "$texts/modulo-128.frames")"

# Each filter with the packets of the whole session that it finds.
while IFS='|' read -r filter wanted; do
  judge "filter $filter" "$(look whole-session -Y "$filter" -T fields -e frame.number | paste -sd ' ')" "$wanted"
done << 'FILTERS'
euroradio.ns == 3|11 13
euroradio.frame == "RR" && euroradio.nr == 4|12 14
euroradio.tpdu.eot == 0|15 16
euroradio.tpdu == "AK" && euroradio.tpdu.yr_tu_nr == 2|13 20
euroradio.sapdu.df == 1|4 7 17 18 19 33
euroradio.sapdu.user == 48:45:4c:4c:4f|11
euroradio.sapdu.sa == 9|4
euroradio.released_by_peer == "0.7"|33
FILTERS

# Faults of every layer.
python3 "$texts/faults.py" tap > "$work/faults.tap"
capture "$work/faults.tap" faults
judge "faults: lines" "$(lines faults)" "$(cat "$texts/faults.lines")"
judge "faults: marks" "$(marks faults)" "$(cat "$texts/faults.marks")"
python3 "$texts/faults.py" drill > "$work/faults.drill"
"$program" drill "$work/faults.drill" > "$work/faults.printed"
look faults -T fields -e frame.interface_name -e euroradio.release -e euroradio.released_by_peer > "$work/faults.found"
judge "faults: reasons" "$(python3 "$texts/faults.py" agree "$work/faults.printed" "$work/faults.found")" "64 agree, 0 differ"

# Every field is there for a filter: each one is seen in some packet.
mapfile -t fields < <(tshark -G fields -X lua_script:tools/euroradio.lua 2> /dev/null | cut -f3 | grep '^euroradio\.' | sort -u)
{
  look whole-session -T fields "${fields[@]/#/-e}"
  look faults -T fields "${fields[@]/#/-e}"
} > "$work/seen"
unseen=$(awk -F '\t' -v names="${fields[*]}" '{ for (n = 1; n <= NF; n++) if ($n != "") seen[n] = 1 }
  END { count = split(names, name, " "); for (n = 1; n <= count; n++) if (!(n in seen)) print name[n] }' "$work/seen")
judge "fields that are never seen" "${#fields[@]}: $unseen" "52: "

# The lines of TCP connections, a frame each, without the sender and the marks of TCP before it; words follow.
wired() {
  look "$@" -Y euroradio -o 'gui.column.format:"Line","%i"' | sed -E 's/^ *(\[TCP [^]]*\] *)*[A-Za-z]*: //; s/ \| /\n/g' | sed 's/ *$//'
}

# Joins octets of a side that follow one another in a tap; flags between frames are shared.
joined() {
  awk '$1 != "octets" { print; next }
    $2 " " $3 == key { octets = octets substr($4, octets ~ /7e$/ ? 3 : 1); next }
    key { print "octets", key, octets }
    { key = $2 " " $3; octets = $4 }
    END { print "octets", key, octets }'
}

# A frame of a segment, frames cut into segments of seven octets, and frames that share flags, several of a segment or cut.
for name in whole-session lossy-session; do
  frames=$(sed -E 's/^link [0-9]+ (engine|RBC) //' "$texts/$name.lines")
  tools/tap --engine 5 --rbc 9 < "$work/$name.printed" > "$work/$name.tap"
  joined < "$work/$name.tap" > "$work/$name.joined"
  python3 tests/packets.py "$work/$name.tap" 20000 > "$work/$name.wired"
  judge "$name over TCP" "$(wired "$name.wired" -o euroradio.tcp_ports:20000)" "$frames"
  judge "$name over TCP, of two passes, by decode as" "$(wired "$name.wired" -2 -d tcp.port==20000,euroradio_tcp)" "$frames"
  judge "$name over TCP, senders" "$(look "$name.wired" -o euroradio.tcp_ports:19999-20001 -Y euroradio -T fields -e euroradio.sender)" \
    "$(sed -E 's/^link [0-9]+ (engine|RBC) .*/\1/' "$texts/$name.lines")"
  for size in 7 1400; do
    python3 tests/packets.py "$work/$name.joined" 20000 $size > "$work/$name.cut"
    judge "$name over TCP, joined, in segments of $size octets" "$(wired "$name.cut" -o euroradio.tcp_ports:20000)" "$frames"
  done
done
python3 tests/packets.py "$work/whole-session.joined" 20000 7 exchanged > "$work/exchanged"
judge "TCP in another order" "$(wired exchanged -o euroradio.tcp_ports:20000 -o tcp.reassemble_out_of_order:TRUE)" \
  "$(sed -E 's/^link [0-9]+ (engine|RBC) //' "$texts/whole-session.lines")"
judge "TCP, where no port is named" "$(look whole-session.wired -Y euroradio)" ""

# What is no frame of a stream.
cat > "$work/odd.tap" << 'TAP'
tap 1
link 1 5 9 0
octets 1 e 00017e013febdf7e
octets 1 r 7e7e017383577e0173
octets 1 r 83587e017e
octets 1 e 01007d7e0121157e7d
TAP
python3 tests/packets.py "$work/odd.tap" 20000 > "$work/odd"
judge "octets that are no frames" "$(wired odd -o euroradio.tcp_ports:20000)" "no frame (before the first flag)
SABM P
UA F
no frame (bad check sequence)
no frame (too short)
no frame (aborted)
no frame (too short)"
{
  printf 'tap 1\nlink 1 5 9 0\noctets 1 e 7e'
  printf '00%.0s' $(seq 3000)
  printf '7e013febdf7e\n'
} > "$work/long.tap"
python3 tests/packets.py "$work/long.tap" 20000 > "$work/long"
judge "a frame that is too long" "$(wired long -o euroradio.tcp_ports:20000 | sort | uniq -c | sed 's/^ *//')" "1 SABM P
1 no frame (bad check sequence)
1 no frame (too long)"

# Octets that are none of the standards' lead to no error.
python3 "$texts/faults.py" mutants > "$work/mutants.tap"
tools/pcap < "$work/mutants.tap" > "$work/mutants" 2> /dev/null
python3 tests/packets.py "$work/mutants.tap" 20000 33 > "$work/mutants.wired"
for preference in modulo_128:FALSE modulo_128:TRUE link_only:TRUE; do
  judge "altered frames, $preference" "$(look mutants -o "euroradio.$preference" -V | grep 'Lua Error')" ""
  judge "altered frames, $preference, malformed" "$(look mutants -o "euroradio.$preference" -Y _ws.malformed)" ""
  judge "altered frames over TCP, $preference" "$(look mutants.wired -o "euroradio.$preference" -o euroradio.tcp_ports:20000 -V | grep 'Lua Error')" ""
done

echo "$passed passed, $failed failed"
[ "$failed" -eq 0 ]
