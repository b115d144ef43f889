#!/bin/sh
# Builds target/abuse/abuse from rustc and the archive alone, and runs it.
#   tests/abuse/run.sh calls N WATCHED [SEED]   calls of the exports; the first WATCHED again under valgrind
#   tests/abuse/run.sh lines N [SEED]           damaged lines to target/bin/hexline; the stored ones under valgrind
# Where something of this machine is missing: one line 'skipped: ..' and no failure.
set -eu
cd "$(dirname "$0")/../.."
out=target/abuse
mkdir -p $out
archive=target/staticlib/librivetgnome.a
skip() { echo "skipped: $1"; exit 0; }
[ "$(uname -s)" = Linux ] || skip 'abuse (its guard pages are made as on Linux)'
command -v rustc >/dev/null || skip 'abuse (Debian package rustc)'
command -v cc >/dev/null || skip 'abuse (Debian package gcc)'
: | rustc --edition 2024 --crate-type lib --crate-name probe --emit metadata --out-dir $out - 2>/dev/null || skip 'abuse (Debian package rustc of a later release)'
[ -f $archive ] || { echo "no $archive: make lib" >&2; exit 1; }
# each export but those that take nothing
for name in $(grep -o 'rg_[a-z0-9_]*(.*' include/rivetgnome.h | sed '/(void)/d; s/(.*//' | sort -u); do
    grep -q "\b$name\b" tests/abuse/*.rs || { echo "abuse: $name is never called"; exit 1; }
done
rustc --edition 2024 -O -D warnings -C link-arg=$archive -o $out/abuse tests/abuse/abuse.rs
watched='valgrind -q --error-exitcode=9'
case $1 in
calls)
    $out/abuse --calls "$2" --seed "${4:-1}"
    command -v valgrind >/dev/null || skip 'abuse under valgrind (Debian package valgrind)'
    $watched $out/abuse --calls "$3" --seed "${4:-1}" >$out/log 2>&1 || { cat $out/log; exit 1; }
    echo "abuse: $3 calls under valgrind, no error"
    ;;
lines)
    [ -x target/bin/hexline ] || { echo 'no target/bin/hexline: make run' >&2; exit 1; }
    $out/abuse --lines "$2" --seed "${3:-1}"
    command -v valgrind >/dev/null || skip 'hexline under valgrind (Debian package valgrind)'
    $watched target/bin/hexline <crates/hexline/stdin >$out/stdout 2>$out/log || { cat $out/log; exit 1; }
    cmp $out/stdout crates/hexline/stdout
    echo 'fuzz: the stored lines under valgrind, no error'
    ;;
*) echo 'calls or lines' >&2; exit 2 ;;
esac
