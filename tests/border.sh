#!/bin/sh
# Fails where the library's face names what only our own crates may: `index::inside`, the module of field readers, the kinds with their makers
# (`Cell`, `Resolution`, `BaseCell`, `Digit`, `Direction`), `entry::judge`, and `below`, which takes checks. The bodies of entries call them; public
# items, the C exports, the line program, the header and the bindings must not name them. The exports and the line program name none of our crates but
# hexagons, outward and their own, and outward only the types that it hands out: any other way to a cell leads to the readers, which are its methods.
set -u
cd "$(dirname "$0")/.." || exit 1
above='crates/rivetgnome/src crates/requests/src crates/replies/src crates/hexline/src'
for f in include bindings crates.txt crates/outward/src crates/entry/src crates/hexagons/src/lib.rt $above; do
    [ -e "$f" ] || { echo "border: there is no $f to read"; exit 1; }
done
kinds='Cell|Resolution|BaseCell|Digit|Direction'
inner=$(sed -n 's/^\([a-z_]*\)[ a-z]*:.*/\1/p' crates.txt | grep -vxE 'hexagons|outward|rivetgnome|words|requests|replies|hexline' | paste -sd'|')
handed='index::Refusal|children::\{Cursor, Given\}|plane::ijk::\{IJ, IJK\}|step_entries::\{Stepped, Walked\}'
# shellcheck disable=SC2086
found=$(
    grep -rnE 'inside|new_unchecked' include bindings crates/outward/src $above
    grep -rnE '^ *pub .*inside' crates/hexagons/src crates/entry/src crates/*_entries/src
    # an item of `pub use` may stand on a line of its own
    for f in crates/hexagons/src/*.rt crates/entry/src/*.rt crates/*_entries/src/*.rt; do
        sed 's#//.*##' "$f" | tr '\n' ' ' | grep -oE 'pub use [^;]*;' | grep 'inside' | sed "s#^#$f: #"
    done
    sed 's#//.*##' crates/hexagons/src/*.rt | tr '\n' ' ' | grep -oE 'pub use [^;]*;' | grep -wE "$kinds|judge|below"
    grep -nE 'judge|below' crates/hexagons/src/*.rt
    for f in $(find crates/outward/src $above -name '*.rt'); do
        sed -e 's#//.*##' -e '/^ *ghost /d' "$f" | grep -wE "$inner" | sed "s#^#$f: #"
    done | grep -vE "^crates/outward/src/[a-z]*\.rt: use ($handed);$"
)
[ -z "$found" ] || { printf '%s\n' "$found"; exit 1; }
