#!/bin/sh
# Measures the MAC of cbc_mac beside OpenSSL's DES-CBC and Botan's X9.19-MAC: sh bench/mac.sh
# It builds the static library first. Where the two libraries are missing and it may, it installs them from
# Debian's packages, and says so; where it may not, it says so and ends with status 0.
# It measures processor time, the best of nine rounds; run it while little else runs, since caches are shared.
set -eu
cd "$(dirname "$0")/.."

leave() {
    echo "mac.sh: $1; nothing is measured"
    exit 0
}

botan() {
    for name in botan-3 botan-2; do
        if pkg-config --exists "$name" 2>/dev/null; then
            echo "$name"
            return
        fi
    done
}

has_libraries() {
    command -v pkg-config >/dev/null && command -v cc >/dev/null && pkg-config --exists libcrypto && [ -n "$(botan)" ]
}

install_libraries() {
    command -v apt-get >/dev/null && [ "$(id -u)" = 0 ] || return 0
    echo "mac.sh: OpenSSL's or Botan's library is missing; apt-get installs libssl-dev and libbotan"
    apt-get update -qq || return 0
    for package in libbotan-3-dev libbotan-2-dev; do
        if apt-cache show "$package" >/dev/null 2>&1; then
            apt-get install -y -qq gcc libc6-dev pkg-config libssl-dev "$package" >/dev/null || true
            return 0
        fi
    done
}

command -v rt >/dev/null || leave "there is no rt to build the library with"
has_libraries || install_libraries
has_libraries || leave "libssl-dev, libbotan-2-dev (or libbotan-3-dev), pkg-config or a C compiler is missing"

log=$(mktemp)
build=$(mktemp -d)
trap 'rm -rf "$log" "$build"' EXIT
if ! (cd crates/bench_c && rt lib) >"$log" 2>&1; then
    cat "$log"
    exit 1
fi
# shellcheck disable=SC2046
cc -O2 -o "$build/mac" bench/mac.c crates/bench_c/out/libbench_c.a $(pkg-config --cflags --libs libcrypto "$(botan)")
"$build/mac"
