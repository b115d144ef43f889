#!/bin/sh
# tests/border.sh is tried: over the tree as it stands it passes, and with any of the lines below in its file it fails.
set -u
cd "$(dirname "$0")/.." || exit 1
room=$(mktemp -d) || exit 1
trap 'rm -rf "$room"' EXIT
mkdir "$room/tests" "$room/crates" && cp -r include bindings crates.txt "$room" && cp tests/border.sh "$room/tests" || exit 1
for c in crates/outward crates/entry crates/hexagons crates/rivetgnome crates/requests crates/replies crates/hexline crates/*_entries; do
    mkdir "$room/$c" && cp -r "$c/src" "$room/$c" || exit 1
done
sh "$room/tests/border.sh" || exit 1
while read -r file line; do
    f=$room/crates/$file
    cp "$f" "$room/kept" && printf '%s\n' "$line" >>"$f" || exit 1
    if sh "$room/tests/border.sh" >/dev/null; then
        echo "border: passes over a line of crates/$file: $line"
        exit 1
    fi
    cp "$room/kept" "$f" || exit 1
done <<'END'
rivetgnome/src/cells.rt fn read(n: u64) -> u64 { index::check(n).map(|c| c.resolution().number()).unwrap_or(0) }
rivetgnome/src/cells.rt fn read(n: u64) -> bool { index::check_flat(n).map(|c| c.in_pentagon()).unwrap_or(false) }
outward/src/answers.rt fn read(n: u64) -> u64 { index::inside::first_axe(n) }
rivetgnome/src/cells.rt use index as i;
rivetgnome/src/cells.rt fn read(n: u64) -> bool { n.try_into().is_ok_and(|t| centres::centre::read_back(t, ORIGIN).is_some_and(|c| c.in_pentagon())) }
outward/src/cursors.rt use children::{Cursor, Given, fresh};
replies/src/say.rt use index::{Refusal, check};
requests/src/cells.rt use index::Cell;
hexline/src/answer.rt fn read(n: u64) -> u64 { cell_entries::check(n); index::inside::get_direction(n) }
hexline/src/answer.rt use cell_entries::check;
hexagons/src/lib.rt pub use cell_entries::below;
hexagons/src/lib.rt pub fn read(n: u32) -> bool { entry::judge::head(n).is_ok() }
entry/src/lib.rt pub use index::inside;
END
