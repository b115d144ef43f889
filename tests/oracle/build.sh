#!/bin/sh
# Builds target/oracle/differ: the Rust original, unchanged, over thin stand-ins for what its text
# lacks, and our archive, in one program. Needs rustc (and its linker) alone. What has not changed is not built again.
#   tests/oracle/build.sh [ARCHIVE]      default target/staticlib/librivetgnome.a, seen from the repository's root
# H3O_SRC: the crate's src folder, default ../shared/docs/src/src seen from the repository's root.
# Where something of this machine is missing: one line 'skipped: ..' and status 77.
set -eu
archive=${1:-target/staticlib/librivetgnome.a}
cd "$(dirname "$0")/../.."
here=tests/oracle
src=${H3O_SRC:-../shared/docs/src/src}
out=target/oracle
mkdir -p "$out"
skip() { echo "skipped: comparison with the Rust ($1)"; exit 77; }
[ -f "$src/lib.rs" ] || skip "no source of h3o 0.11.1 at $src; set H3O_SRC"
command -v rustc >/dev/null || skip 'Debian package rustc'
command -v cc >/dev/null || skip 'Debian package gcc'
echo 'pub fn f(n: u32) -> bool { n.is_multiple_of(3) }' |
    rustc --edition 2024 --crate-type lib --crate-name probe --emit metadata --out-dir "$out" - 2>/dev/null ||
    skip 'rustc is too old for h3o 0.11.1; Debian package rustc of a later release'
[ -f "$archive" ] || { echo "no $archive: make lib" >&2; exit 1; }
# As a release is built: the Rust's own overflow and debug checks are off.
flags='--edition 2024 -O -C debug-assertions=off -C overflow-checks=off'

# changed STAMP PATH..: does the stamp tell of another compiler, script or files than these?
changed() {
    stamp=$1
    shift
    { rustc -V; find "$here/build.sh" "$@" -type f -print0 | LC_ALL=C sort -z | xargs -0 sha256sum; } >"$stamp.new"
    ! cmp -s "$stamp" "$stamp.new"
}

# A stand-in fills a gap and never replaces a file of the crate.
(cd "$here/stand-ins" && find . -type f) | while IFS= read -r f; do
    [ ! -e "$src/$f" ] || { echo "stand-in $f would hide a file of the crate" >&2; exit 1; }
done

# shellcheck disable=SC2086
if changed "$out/h3o.stamp" "$src" "$here/stand-ins" "$here/h3o_bit" "$here/either" "$here/float_eq"; then
    rm -rf "$out/text" "$out/h3o.stamp"
    cp -R "$src" "$out/text"
    chmod -R u+w "$out/text"
    cp -R "$here/stand-ins/." "$out/text/"
    for c in h3o_bit either float_eq; do
        rustc $flags --crate-type rlib --crate-name $c --out-dir "$out" "$here/$c/lib.rs"
    done
    # --cap-lints allow: lib.rs denies warnings, and the stand-ins carry none of its documentation
    rustc $flags --crate-type rlib --crate-name h3o --cap-lints allow --cfg 'feature="std"' \
        --extern h3o_bit="$out/libh3o_bit.rlib" --extern either="$out/libeither.rlib" --extern float_eq="$out/libfloat_eq.rlib" \
        -L "$out" --out-dir "$out" "$out/text/lib.rs"
    mv "$out/h3o.stamp.new" "$out/h3o.stamp"
fi

# shellcheck disable=SC2086
if changed "$out/differ.stamp" "$here"/*.rs "$archive" "$out/libh3o.rlib" || [ ! -x "$out/differ" ]; then
    rm -f "$out/differ.stamp"
    rustc $flags --crate-name differ -D warnings --extern h3o="$out/libh3o.rlib" -L "$out" -C link-arg="$archive" -o "$out/differ" "$here/differ.rs"
    mv "$out/differ.stamp.new" "$out/differ.stamp"
fi
