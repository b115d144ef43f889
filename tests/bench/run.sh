#!/bin/sh
# Times the archive beside the Rust original, for `make bench`: the Rust as a release is built, then with fat LTO.
# Needs what tests/oracle/build.sh needs; where that is missing: one line 'skipped: ..' and status 77.
#   tests/bench/run.sh [ARCHIVE]
set -eu
archive=${1:-target/staticlib/librivetgnome.a}
cd "$(dirname "$0")/../.."
tests/oracle/build.sh "$archive"
out=target/bench
mkdir -p "$out"
build() {
    name=$1
    shift
    rustc --edition 2024 -C opt-level=3 -C debug-assertions=off -C overflow-checks=off -D warnings -A dead_code "$@" --crate-name bench \
        --extern h3o=target/oracle/libh3o.rlib -L target/oracle -C link-arg="$archive" -o "$out/$name" tests/bench/bench.rs
}
build release
build lto -C lto=fat -C codegen-units=1
echo "machine: $(sed -n 's/^model name[^:]*: //p' /proc/cpuinfo | sed 1q), $(nproc) cores"
echo "compilers: $(rustc -V); $(rt version 2>/dev/null | sed 1q)"
echo "commit: $(git rev-parse --short HEAD 2>/dev/null || echo unknown)$(git diff --quiet HEAD 2>/dev/null || echo ', changed')"
echo 'Nanoseconds an element, the least of 200 rounds in 25 passes over 65,536 inputs (listings: 64 cells), seed 1, sides and rows by turns. A figure above 1 under `times` says that ours is faster.'
echo
"$out/release" "$out/figures"
"$out/lto" "$out/figures" --beside
