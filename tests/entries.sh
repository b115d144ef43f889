#!/bin/sh
# The public entries, one a line: the functions that crate hexagons passes on.
cd "$(dirname "$0")/.." || exit 1
sed 's#//.*##' crates/hexagons/src/lib.rt | tr '\n' ' ' | grep -oE 'pub use [^;]*;' | sed 's/^pub use .*:://; s/;$//' |
    tr '{},' '   ' | tr -s ' ' '\n' | grep -E '^[a-z][a-z0-9_]*$'
