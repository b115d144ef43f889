#!/bin/sh
# Holds docs/STATEMENTS.md to the tree, for the gate. Its table of entries has a row for each public entry (a function that crate hexagons passes on) and
# names each export of rivetgnome; in a row, the statement is a definition that the entry's `ensures` cites, the theorem is there, and each
# of at least two edits is there and changes a program. Each refusal has a row, whose theorems are there. Every edit is named somewhere in the
# document. The counts at its end are those of tests/counts.sh. Each crate was proved, as rt ci says, in this run or with the same files in an earlier
# one, and the lines of what is assumed are what the prover reports of the library and the program (tests/rests.sh).
#   tests/statements.sh [LOG]      what rt ci printed, default target/ci.log
set -u
cd "$(dirname "$0")/.." || exit 1
log=${1:-target/ci.log}
doc=docs/STATEMENTS.md
bad=$(mktemp) && trap 'rm -f "$bad"' EXIT
say() { echo "statements: $*" >>"$bad"; }

# | entry | export | statement | theorem | the export's theorem | edits | as lines with tabs, the backquotes dropped
rows=$(sed -n '/^| entry |/,/^$/p' "$doc" | sed -n '3,$p' | tr -d '`' | sed 's/^| *//; s/ *|$//; s/ *| */\t/g')
names=$(tests/entries.sh)
[ -n "$names" ] || say 'hexagons passes no function on'
exports=$(sed -n 's/^pub extern "C" fn \(rg_[a-z0-9_]*\)(.*/\1/p' crates/rivetgnome/src/*.rt)
[ -n "$exports" ] || say 'rivetgnome exports nothing'
for n in $names; do
    [ "$(printf '%s\n' "$rows" | cut -f1 | tr ', ' '\n\n' | grep -cx "$n")" = 1 ] || say "entry $n has no row of its own"
done
for e in $exports; do
    [ "$(printf '%s\n' "$rows" | cut -f2 | tr ', ' '\n\n' | grep -cx "$e")" = 1 ] || say "export $e is named in no row, or in several"
done
printf '%s\n' "$rows" | while IFS="$(printf '\t')" read -r entries given statement theorem out edits; do
    for n in $(echo "$entries" | tr ',' ' '); do
        echo "$names" | grep -qx "$n" || [ "$n" = - ] || say "$n is no entry"
        [ "$n" = - ] || cat crates/*_entries/src/*.rt | sed -n "/^pub fn $n(/,/^{/p" | grep -qw "$statement" || say "$n does not promise $statement"
    done
    for e in $(echo "$given" | tr ',' ' '); do
        echo "$exports" | grep -qx "$e" || say "$e is no export"
    done
    [ "$statement" = - ] || grep -qE "^ *(abbrev |unfoldable )?pub (record )?$statement( |$)" crates/*/specs/*.antt || say "$statement is defined in no specs"
    for t in $theorem $out; do
        [ "$t" = - ] || grep -qE "^ *pub $t( |$)" crates/*/proofs/*.antt || say "$t ($entries) is no theorem"
    done
    grep -qE "^ *pub $out( |$)" crates/rivetgnome/proofs/*.antt || say "$out ($given) is no theorem about exports"
    count=0
    for e in $(echo "$edits" | tr ',' ' '); do
        f=crates/${e%%/*}/must-fail/${e#*/}.edit
        if [ ! -f "$f" ]; then
            say "$entries: there is no edit $e"
        elif ! grep -q '^file: src/' "$f"; then
            say "$entries: $e changes no program"
        fi
        count=$((count + 1))
    done
    [ $count -ge 2 ] || [ "$given" = rg_version ] || say "$entries: fewer than two wrong programs"
done
for n in 1 2 3 4 5 6 7 8 9 10 11 12 13 14 15 16 17; do
    told=$(sed -n "s/^| $n |.*| \([^|]*\) |\$/\1/p" "$doc" | grep -o '`[a-z0-9_]*`' | tr -d '`')
    [ -n "$told" ] || say "refusal $n has no row, or a row without a theorem"
    for t in $told; do
        grep -qE "^ *pub $t( |$)" crates/*/proofs/*.antt || say "$t (refusal $n) is no theorem"
    done
done
for f in crates/*/must-fail/*.edit; do
    e=$(echo "$f" | sed 's#crates/\(.*\)/must-fail/\(.*\).edit#\1/\2#')
    grep -qF "\`$e\`" "$doc" || say "edit $e is not named"
done
for c in $(sed -n 's/^\([a-z0-9_]*\)\( [^:]*\)\{0,1\}:.*/\1/p' crates.txt); do
    grep -qE "^rt: $c (proved$|is kept: )" "$log" 2>/dev/null || say "$c: $log does not say that it is proved"
done
rests=$(tests/rests.sh)
[ "$(grep '^    [a-z_]* rests on ' "$doc")" = "$rests" ] || say "what is assumed is not what the prover reports:
$rests"
[ "$(tests/counts.sh)" = "$(sed -n '/^    crate /,$p' "$doc")" ] || say 'the counts are not those of tests/counts.sh'
if [ -s "$bad" ]; then
    cat "$bad"
    exit 1
fi
