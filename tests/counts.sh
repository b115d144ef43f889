#!/bin/sh
# What stands where, by crate, as docs/STATEMENTS.md ends with it, and how many theorems that document names. Lines are those that are neither empty nor comment; lines to believe are those of specs/.
# A name that is a public entry's too is not counted as a theorem's.
set -u
cd "$(dirname "$0")/.." || exit 1
lines() { cat /dev/null "$@" 2>/dev/null | grep -vcE '^ *(--.*|//.*)?$'; }
row() { printf '    %-14s %9s %9s %7s %10s %6s\n' "$@"; }
row crate functions program believe proof edits
total_f=0 total_p=0 total_b=0 total_l=0 total_e=0
for c in $(sed -n 's/^\([a-z0-9_]*\)\( [^:]*\)\{0,1\}:.*/\1/p' crates.txt); do
    f=$(cat crates/$c/src/*.rt | grep -cE '^ *(pub(\([a-z]+\))? )?(extern "C" )?fn ')
    p=$(lines crates/$c/src/*.rt)
    b=$(lines crates/$c/specs/*.antt)
    l=$(lines $(find crates/$c/proofs -name '*.antt' 2>/dev/null))
    e=$(find crates/$c -path '*/out' -prune -o -name '*.edit' -print | wc -l)
    row "$c" "$f" "$p" "$b" "$l" "$e"
    total_f=$((total_f + f)) total_p=$((total_p + p)) total_b=$((total_b + b)) total_l=$((total_l + l)) total_e=$((total_e + e))
done
row all $total_f $total_p $total_b $total_l $total_e
entries=$(tests/entries.sh)
named=$(grep -o '`[a-z][a-z0-9_]*`' docs/STATEMENTS.md | tr -d '`' | sort -u | while read -r t; do
    echo "$entries" | grep -qx "$t" && continue
    grep -qE "^ *pub $t( |$)" crates/*/proofs/*.antt && echo "$t"
done | wc -l)
echo "    theorems named in docs/STATEMENTS.md: $named"
