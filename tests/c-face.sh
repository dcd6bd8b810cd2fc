#!/usr/bin/env bash
# The library for C: tests/c-face.sh [--unproved FILE] [--without valgrind] [--without ada] [--without aarch64]
# It builds crates/er_end_c by both of the toolchain's compilers, and for aarch64, over what the gate proved. For each of the two libraries it holds the header against the
# exports (and altered headers must be refused); runs the programs of tests/c plain, with the address and undefined-behaviour sanitizers and under
# valgrind; has tests/c/replay do the events of each replay row and of each trace that is recorded from the drills of level full, and compares with the
# built program; lets the train and the centre of examples/c talk to the built program over loopback sockets, with recordings that replay. Then once: all
# C compiles without a warning, as C++ too; what tools/install-c installs is used by way of pkg-config; Ada; aarch64.
# It takes the built program as it is, or the one that PROGRAM names; LIBRARY_LLVM, LIBRARY_RATTLE, LIBRARY_AARCH64 name libraries that are built already. With --unproved it builds none, and
# tries an archive of which nothing is proved (tests/archive.sh) in the place of all: a first look, which tells nothing of what either compiler makes of the proved library.
# It wants a C compiler, python3 and valgrind, and installs what is missing where it may (as root, by apt-get). Where valgrind can't be had it fails,
# unless it is told to go without. Ada and aarch64 are left out where their compilers can't be had. Closes with 'N passed, M failed'.
set -u
cd "$(dirname "$0")/.." || exit 1
top=$PWD
program=${PROGRAM:-$top/crates/euroradio/out/euroradio}
keys=$top/examples/recorded-session.keys
without=
unproved=
while [ $# -gt 0 ]; do
  [ $# -gt 1 ] || { sed -n '2s/^# //p' "$0"; exit 2; }
  case $1 in
    --without) without="$without $2 " ;;
    --unproved) unproved=$2 ;;
    *) sed -n '2s/^# //p' "$0"; exit 2 ;;
  esac
  shift 2
done
libraries="llvm rattle"
[ -z "$unproved" ] || { libraries=unproved && without="$without aarch64 "; }
first=${libraries%% *}

passed=0
failed=0
work=$(mktemp -d)
started=
clean_up() {
  for each in $started; do kill "$each" 2> /dev/null; done
  rm -rf "$work"
}
trap clean_up EXIT
strict="-std=c99 -Wall -Wextra -Wpedantic -Werror"
include="-I$top/include -I$top/memory -I$top/examples/c"

# Runs the words behind $1, the name of what is tried: a status of 0 passes.
judge() {
  local name=$1
  shift
  if "$@" > "$work/said" 2>&1; then
    passed=$((passed + 1))
  else
    failed=$((failed + 1))
    echo "$name: failed"
    tail -25 "$work/said" | cut -c1-200
  fi
}

refused() {
  ! "$@" > /dev/null 2>&1
}

install() {
  [ "$(id -u)" = 0 ] && command -v apt-get > /dev/null || return 1
  echo "installs $*"
  { apt-get update -qq && DEBIAN_FRONTEND=noninteractive apt-get install -y -qq "$@"; } > "$work/installing" 2>&1
}

is_without() {
  case $without in *" $1 "*) return 0 ;; *) return 1 ;; esac
}

# ---- what is wanted

cc=${CC:-cc}
command -v "$cc" > /dev/null || install gcc g++ libc6-dev binutils
command -v c++ > /dev/null || install g++
command -v "$cc" > /dev/null || { echo "there is no C compiler"; echo "0 passed, 1 failed"; exit 1; }
has_valgrind=1
if is_without valgrind; then
  has_valgrind=0
  echo "left out: valgrind"
elif ! command -v valgrind > /dev/null && { ! install valgrind libc6-dbg || ! command -v valgrind > /dev/null; }; then
  has_valgrind=0
  failed=$((failed + 1))
  echo "valgrind isn't installed and can't be had here: --without valgrind leaves it out"
fi
[ -x "$program" ] || { echo "the program was not built"; echo "0 passed, 1 failed"; exit 1; }

# The library with the flags behind $2, put at $1: where it stands already, by its environment variable; else over what `rt ci` proved and left, so that
# er_end_c alone is checked; else as `rt lib` builds it, which proves all below it.
build() {
  local into=$1 given=$2 status
  shift 2
  if [ -n "$given" ]; then
    cp "$given" "$into"
    return
  fi
  python3 tests/c-library.py "$into" "$@" > "$work/building" 2>&1
  status=$?
  if [ "$status" -eq 3 ]; then
    (cd crates/er_end_c && rt lib "$@") > "$work/building" 2>&1 && cp crates/er_end_c/out/liber_end_c.a "$into"
    status=$?
  fi
  [ "$status" -eq 0 ] || tail -30 "$work/building"
  return "$status"
}
if [ -n "$unproved" ]; then
  cp "$unproved" "$work/unproved.a" || failed=$((failed + 1))
else
  build "$work/rattle.a" "${LIBRARY_RATTLE:-}" --backend rattle || failed=$((failed + 1))
  build "$work/llvm.a" "${LIBRARY_LLVM:-}" || failed=$((failed + 1))
fi
if is_without aarch64; then
  echo "left out: aarch64"
else
  build "$work/aarch64.a" "${LIBRARY_AARCH64:-}" --target aarch64-unknown-linux-gnu || failed=$((failed + 1))
fi

# ---- the header

header() {
  tools/c-header "$work/$1.a"
}

# A header with one change, which must be noticed: $1 is what sed does.
altered() {
  sed "$1" include/euroradio.h > "$work/altered.h"
  ! cmp -s include/euroradio.h "$work/altered.h" && refused tools/c-header --header "$work/altered.h"
}

compiles() {
  local file
  for file in memory/*.c examples/c/*.c tests/c/*.c bench/c_face.c; do
    # shellcheck disable=SC2086
    "$1" $2 $include -Itests/c -Wno-unused-function -c -o /dev/null "$file" || return 1
  done
}

# The blocks of C in a document, behind tests/c/prelude.h.
document() {
  { cat tests/c/prelude.h && awk '/^```c$/ { inside = 1; next } /^```/ { inside = 0 } inside' "$1"; } > "$work/document.c"
  # shellcheck disable=SC2086
  "$cc" $strict -Wno-unused-variable $include -c -o /dev/null "$work/document.c"
}

# What a program has of the headers, by each of the languages' editions without a warning of any kind.
cat > "$work/everything.c" << 'END'
#include <euroradio_text.h>
int main(void);
int main(void) {
    euroradio_end end = EURORADIO_END_INIT;
    euroradio_settings settings = EURORADIO_SETTINGS_INIT;
    euroradio_free(&end);
    return euroradio_reason_text(1, EURORADIO_WHY_LINE_ENDED % 256) == euroradio_status_text(EURORADIO_MEMORY) || euroradio_key_fault_text(EURORADIO_KEY_HEX) == euroradio_key_field_text(EURORADIO_KEY_FIELD_TO) ||
           settings.modulo == 0;
}
END

without_any_warning() {
  local edition
  for edition in c99 c11 c17 c2x; do
    clang -Weverything -Werror -x c -std=$edition -fsyntax-only -Iinclude "$work/everything.c" || return 1
  done
  for edition in c++11 c++14 c++17 c++20; do
    clang -Weverything -Werror -x c++ -std=$edition -fsyntax-only -Iinclude "$work/everything.c" || return 1
  done
}

judge "the C of docs/EMBEDDING.md" document docs/EMBEDDING.md
# The words with one change.
altered_text() {
  sed "$1" include/euroradio_text.h > "$work/altered.h"
  ! cmp -s include/euroradio_text.h "$work/altered.h" && refused tools/c-header --text "$work/altered.h"
}

judge "C99 without a warning" compiles "$cc" "$strict"
judge "C++ without a warning" compiles c++ "-x c++ -std=c++11 -Wall -Wextra -Wpedantic -Werror"
if command -v clang > /dev/null; then
  judge "C99 without a warning of clang" compiles clang "$strict"
  judge "the headers without any warning of clang, C99 to C23 and C++11 to C++20" without_any_warning
else
  echo "left out: clang, since it isn't installed"
fi
for change in 's/uint32_t me, uint32_t peer,/uint32_t me, uint64_t peer,/' 's/uint64_t rb, uint64_t now/uint64_t now, uint64_t rb/' \
  's/uint8_t sub, euroradio_deeds/uint32_t sub, euroradio_deeds/' 's/^int32_t euroradio_tick/uint32_t euroradio_tick/' \
  's/^size_t euroradio_out(euroradio_end \*end, size_t from, /size_t euroradio_out(euroradio_end *end, /' '/^size_t euroradio_waiting/d' \
  's/_NUMBER (-4)/_NUMBER (-5)/' 's/_FULL 4 /_FULL 3 /' 's/    uint8_t back; .*//' 's/    size_t used; /    uint32_t used; /' \
  '/uint32_t window;/{h;d};/uint32_t credit;/G' 's/ const uint64_t kmac\[3\]/ const uint64_t kmac[2]/' 's/1000000000000000/100000000000000/' 's/200208/200207/' 's/_UNSENT_MOST 16/_UNSENT_MOST 15/' \
  's/    void \*private_end;/    uint64_t private_end;/' 's/    uint64_t kmac\[3\];/    uint64_t kmac[4];/' 's/_VERSION [0-9]*/_VERSION 1/' \
  's/const uint8_t \*keys,/uint8_t *keys,/' 's/_VERSION_TEXT "[0-9.]*"/_VERSION_TEXT "1.0"/' 's/_KEY_HEX 4/_KEY_HEX 5/' 's/EURORADIO_WHY(3, 1)/EURORADIO_WHY(3, 2)/' \
  's/(reason) \* 256/(reason) * 100/' 's/ uint64_t key\[3\]/ uint64_t *key/' 's/    size_t other; .*//'; do
  judge "a header altered by $change is refused" altered "$change"
done

judge "words that were altered are refused" altered_text 's/the line failed/the line ended/'

# ---- programs in C

# Compiles the program $2 (of tests/c or examples/c) with the library $1, the heap $3 and the flags behind.
program_of() {
  local library=$1 name=$2 heap=$3 source=tests/c/$2.c
  shift 3
  case $name in
    pair) source=examples/c/pair.c ;;
    replay) source="tests/c/replay.c examples/c/recording.c" ;;
    train | centre) source="examples/c/$name.c examples/c/session.c examples/c/recording.c" ;;
  esac
  # shellcheck disable=SC2086
  "$cc" $strict -Wno-unused-function $include "$@" -o "$work/$library-$name" $source $heap "$work/$library.a" -lpthread
}

heap_of() {
  case $1 in
    calls | wired | memory) echo tests/c/counting_heap.c ;;
    wiping) echo memory/euroradio_pool.c memory/euroradio_stack.c ;;
    *) echo memory/euroradio_heap.c ;;
  esac
}

sanitizers="-O1 -g -fsanitize=address,undefined -fno-sanitize-recover=all"
valgrind="valgrind -q --error-exitcode=9 --leak-check=full --show-leak-kinds=all --errors-for-leak-kinds=all"

try() {
  local library=$1 name=$2 heap flags='' words=''
  heap=$(heap_of "$name")
  judge "$library: $name is built" program_of "$library" "$name" "$heap" -O2
  if [ "$name" = memory ]; then
    # octets of stack, as docs/EMBEDDING.md tells them: of euroradio_call, euroradio_answer, euroradio_answer_keys, euroradio_free, any other call
    case $library in
      llvm) judge "$library: memory" "$work/$library-memory" 37000 37000 37000 9500 6500 ;;
      rattle) judge "$library: memory" "$work/$library-memory" 56000 56000 56000 52000 30000 ;;
      unproved) judge "$library: memory" "$work/$library-memory" 300000 300000 300000 300000 300000 ;;
    esac
    ! grep -q ' 0 failed$' "$work/said" || sed 's/^/  '"$library"': /' "$work/said"
    return
  fi
  judge "$library: $name" timeout 600 "$work/$library-$name"
  if [ "$has_valgrind" = 1 ]; then
    # wiping reads the memory of ends, padding too, which may never have been written, and stacks of threads that have ended
    [ "$name" != wiping ] || { flags=--undef-value-errors=no && words=pool; }
    # shellcheck disable=SC2086
    judge "$library: $name under valgrind" timeout 1200 $valgrind $flags "$work/$library-$name" $words
    [ "$name" != threads ] || judge "$library: threads under helgrind" timeout 1200 valgrind -q --tool=helgrind --error-exitcode=9 "$work/$library-$name"
  fi
  # shellcheck disable=SC2086
  judge "$library: $name is built with sanitizers" program_of "$library" "$name" "$heap" $sanitizers
  judge "$library: $name with sanitizers" timeout 600 "$work/$library-$name"
}

# ---- replays

# One row: what tests/c/replay prints and its status. Of a key file that is refused the library tells only that it is.
replays_row() {
  local library=$1 row=$2 way=$3 status wanted names
  wanted=$(cat "$row/status")
  mapfile -t names < <(sed 1d "$row/args")
  local from=$row
  case $row in */example-*) from=$top/examples ;; esac
  "$work/$library-replay" "$from/${names[0]}" "$from/${names[1]}" $way > "$work/printed"
  status=$?
  [ "$status" = "$wanted" ] || { echo "status $status, wanted $wanted"; return 1; }
  [ "$wanted" = 4 ] || cmp "$work/printed" "$row/stdout"
}

# Whether a row is a replay whose fault, if any, is one of events or keys: what is out of the trace's grammar isn't the library's.
is_for_library() {
  [ "$(head -1 "$1/args")" = replay ] || return 1
  case $(cat "$1/status") in
    0 | 4) return 0 ;;
    3) tail -1 "$1/stdout" | grep -qE '^! line [0-9]+ (noconn|twice|back|nokey|many)$' ;;
    *) return 1 ;;
  esac
}

# Where the drills' ends are recorded, this stands for the program: each replay is done by the libraries too.
cat > "$work/both" << END
#!/usr/bin/env bash
[ "\$1" = replay ] || exec "$program" "\$@"
"$program" "\$@" > "\$2.answer" || exit
for library in $libraries; do
  for way in "" array; do
    "$work/\$library-replay" "\$2" "\$3" \$way > "\$2.c" && cmp -s "\$2.answer" "\$2.c" || { echo "the replay of \$library \$way differs"; exit 1; }
  done
  echo >> "$work/done"
done
cat "\$2.answer"
END
chmod +x "$work/both"

traces_of_drills() {
  local drill answer drills=0
  : > "$work/done"
  while IFS= read -r drill; do
    answer=$(python3 tests/drill-to-trace.py "$work/both" "$drill") || { echo "$drill: $answer"; return 1; }
    case $answer in skipped:*) ;; *) drills=$((drills + 1)) ;; esac
  done < <(grep -rlE '^drill 1 full' examples tests/rows)
  echo "  $drills drills, $(($(wc -l < "$work/done") / $(echo "$libraries" | wc -w))) traces" > "$work/told"
  [ "$drills" -gt 0 ] && [ -s "$work/done" ]
}

# ---- over sockets

free_port() {
  PYTHONPATH=$top/tests python3 -Bc 'import serving; print(serving.free_port())'
}

same_again() {
  "$program" replay "$keys" "$1" > "$1.again" && cmp "$1" "$1.again" && grep -q '^< 1 taken' "$1"
}

# The train, run by the words behind $1, against `serve`.
served() {
  local recording=$1 port server status
  shift
  port=$(free_port)
  "$program" serve "$keys" "127.0.0.1:$port" 9 10000000 > "$work/served" 2> /dev/null &
  server=$!
  started="$started $server"
  for _ in $(seq 100); do
    timeout 60 "$@" 127.0.0.1 "$port" 5 9 > "$recording"
    status=$?
    [ "$status" = 2 ] || break
    sleep 0.1
  done
  kill "$server"
  wait "$server" 2> /dev/null
  [ "$status" = 0 ] && same_again "$recording"
}

# The centre, run by the words behind $1, and `call`.
called() {
  local recording=$1 port centre status
  shift
  port=$(free_port)
  timeout 60 "$@" 127.0.0.1 "$port" 9 > "$recording" &
  centre=$!
  started="$started $centre"
  for _ in $(seq 100); do
    # while the centre doesn't listen yet, dialling fails, or the connection does
    timeout 60 "$program" call "$keys" "127.0.0.1:$port" 5 9 100000 > "$work/called" 2> /dev/null
    status=$?
    ! grep -q '^< 1 connected' "$work/called" || break
    sleep 0.1
  done
  wait "$centre" && [ "$status" = 0 ] && same_again "$recording" && grep -q 'released 0 0 local' "$work/called"
}

over_sockets() {
  local library=$1
  judge "$library: a train against serve" served "$work/train" "$work/$library-train"
  judge "$library: call against a centre" called "$work/centre" "$work/$library-centre"
  if [ "$has_valgrind" = 1 ]; then
    # shellcheck disable=SC2086
    judge "$library: a train under valgrind" served "$work/train" $valgrind "$work/$library-train"
    # shellcheck disable=SC2086
    judge "$library: a centre under valgrind" called "$work/centre" $valgrind "$work/$library-centre"
  fi
  # shellcheck disable=SC2086
  judge "$library: a train is built with sanitizers" program_of "$library" train memory/euroradio_heap.c $sanitizers
  # shellcheck disable=SC2086
  judge "$library: a centre is built with sanitizers" program_of "$library" centre memory/euroradio_heap.c $sanitizers
  judge "$library: a train with sanitizers" served "$work/train" "$work/$library-train"
  judge "$library: a centre with sanitizers" called "$work/centre" "$work/$library-centre"
}

for library in $libraries; do
  judge "$library: the header" header "$library"
  for name in calls wired texts threads wiping pair memory; do
    try "$library" "$name"
  done
  judge "$library: threads over a pool are built" program_of "$library" threads memory/euroradio_pool.c -O2 -DEURORADIO_POOL_PTHREAD
  judge "$library: threads over a pool" timeout 600 "$work/$library-threads"
  judge "$library: replay is built" program_of "$library" replay memory/euroradio_heap.c -O2
  rows=0
  for row in tests/rows/*/; do
    if is_for_library "$row"; then
      rows=$((rows + 1))
      judge "$library: row $(basename "$row")" replays_row "$library" "$row" ""
      judge "$library: row $(basename "$row") by an array of keys" replays_row "$library" "$row" array
    fi
  done
  echo "  $library: $rows rows"
  judge "$library: train is built" program_of "$library" train memory/euroradio_heap.c -O2
  judge "$library: centre is built" program_of "$library" centre memory/euroradio_heap.c -O2
  over_sockets "$library"
done
judge "the traces of the drills" traces_of_drills
cat "$work/told" 2> /dev/null

# ---- installed

installed() {
  local name
  tools/install-c --prefix "$work/prefix" --library "$work/$first.a" || return 1
  for name in euroradio euroradio-pool; do
    # shellcheck disable=SC2046
    PKG_CONFIG_PATH=$work/prefix/lib/pkgconfig pkg-config --cflags --libs "$name" > "$work/flags" &&
      "$cc" -std=c99 -o "$work/installed" "$work/prefix/share/euroradio/examples/pair.c" $(cat "$work/flags") || return 1
  done
  # the pool of the second has no memory until it is opened, so no end can be made
  refused "$work/installed" || return 1
  # shellcheck disable=SC2046
  "$cc" -std=c99 -o "$work/installed" examples/c/pair.c $(PKG_CONFIG_PATH=$work/prefix/lib/pkgconfig pkg-config --cflags --libs euroradio) &&
    "$work/installed" | grep -q "the centre takes a position report" || return 1
  mkdir "$work/made" && make -s -C "$work/prefix/share/euroradio/examples" OUT="$work/made" PKG_CONFIG_PATH="$work/prefix/lib/pkgconfig" &&
    "$work/made/pair" | grep -q "the centre takes a position report"
}

# A shared object takes the library as it is.
shared() {
  # shellcheck disable=SC2086
  "$cc" $include -shared -fPIC -o "$work/shared.so" memory/euroradio_heap.c -Wl,--whole-archive "$work/$first.a" -Wl,--no-whole-archive
}

command -v pkg-config > /dev/null && command -v make > /dev/null || install pkg-config make
judge "tools/install-c and pkg-config" installed
judge "a shared object" shared

# The pair as C++.
as_cpp() {
  # shellcheck disable=SC2086
  "$cc" -c $include -o "$work/heap.o" memory/euroradio_heap.c &&
    c++ $include -o "$work/cpp" -x c++ examples/c/pair.c -x none "$work/heap.o" "$work/$first.a" && "$work/cpp" | grep -q "the centre takes a position report"
}
judge "two ends in C++" as_cpp

# ---- Ada

in_ada() {
  mkdir -p "$work/ada" && (
    cd "$work/ada" && "$cc" -c -I"$top/memory" "$top/memory/euroradio_heap.c" &&
      gnatmake -q -gnat2012 -gnatwa -gnatwe -I"$top/examples/c/ada" two_ends.adb -largs euroradio_heap.o "$work/$1.a" && ./two_ends
  )
}

if is_without ada; then
  echo "left out: Ada"
elif command -v gnatmake > /dev/null || { install gnat && command -v gnatmake > /dev/null; }; then
  for library in $libraries; do
    judge "$library: two ends in Ada" in_ada "$library"
  done
else
  echo "left out: Ada, since gnat isn't installed and can't be had here"
fi

# ---- aarch64

cross=aarch64-linux-gnu-gcc

for_aarch64() {
  local name=$1 source=tests/c/$1.c
  [ "$name" != pair ] || source=examples/c/pair.c
  # shellcheck disable=SC2086
  "$cross" $strict -Wno-unused-function -static -O2 $include -o "$work/aarch64-$name" "$source" $(heap_of "$name") "$work/aarch64.a" -lpthread
}

if ! is_without aarch64; then
  command -v $cross > /dev/null && command -v qemu-aarch64 > /dev/null || install gcc-aarch64-linux-gnu libc6-dev-arm64-cross qemu-user
  emulator=$(command -v qemu-aarch64 || command -v qemu-aarch64-static)
  if ! command -v $cross > /dev/null; then
    echo "left out: aarch64 is built, but not linked, since its C compiler isn't installed and can't be had here"
  else
    for name in pair calls wired threads wiping; do
      judge "aarch64: $name is linked" for_aarch64 "$name"
      [ -z "$emulator" ] || judge "aarch64: $name" timeout 1200 "$emulator" "$work/aarch64-$name"
    done
    [ -n "$emulator" ] || echo "left out: aarch64 is linked, but not run, since qemu-user isn't installed and can't be had here"
  fi
fi

echo "$passed passed, $failed failed"
[ "$failed" -eq 0 ] && [ "$passed" -gt 0 ]
