#!/bin/sh
# Measures the deframer of hdlc_bits beside a plain C reader of the same rules, in one run, as MiB of line a second of processor
# time and ratios: sh bench/bits.sh
# It builds the static library first, and installs a C compiler from Debian's packages where it may.
# On a machine without one it says so and ends with status 0.
set -eu
cd "$(dirname "$0")/.."

leave() {
    echo "bits.sh: $1; nothing is measured"
    exit 0
}

install_compiler() {
    command -v apt-get >/dev/null && [ "$(id -u)" = 0 ] || return 0
    echo "bits.sh: there is no C compiler; it installs gcc"
    apt-get update -qq || return 0
    apt-get install -y -qq gcc libc6-dev >/dev/null || true
}

compiler=${CC:-cc}
command -v rt >/dev/null || leave "there is no rt to build the library with"
command -v "$compiler" >/dev/null || install_compiler
command -v "$compiler" >/dev/null || leave "there is no C compiler"

log=$(mktemp)
build=$(mktemp -d)
trap 'rm -rf "$log" "$build"' EXIT
if ! (cd crates/bench_c && rt lib) >"$log" 2>&1; then
    cat "$log"
    exit 1
fi
"$compiler" -O2 -Wall -Wextra -o "$build/bits" bench/bits.c crates/bench_c/out/libbench_c.a
"$build/bits"
