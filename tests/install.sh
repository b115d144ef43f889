#!/bin/sh
# make install and make uninstall of what stands in target/, in temporary folders, and a C program built by pkg-config alone.
set -u
cd "$(dirname "$0")/.." || exit 1
LC_ALL=C
export LC_ALL
work=$(mktemp -d) || exit 1
trap 'rm -rf "$work"' EXIT
. tests/same.sh

files() {
    (cd "$1" && find . ! -type d | sort | tr '\n' ' ')
}

version=$(sed -n 's/^#define RG_VERSION_M[AI][A-Z]* //p; s/^#define RG_VERSION_PATCH //p' include/rivetgnome.h | paste -sd . -)
soname=librivetgnome.so.${version%%.*}
all="./bin/hexline ./include/rivetgnome.h ./lib/librivetgnome.a ./lib/librivetgnome.so ./lib/$soname ./lib/librivetgnome.so.$version ./lib/pkgconfig/rivetgnome.pc "
if command -v gcc >/dev/null; then so=yes; else so=no; fi
[ $so = yes ] || all=$(echo "$all" | sed 's/[^ ]*\.so[^ ]* //g')

cat >"$work/use.c" <<'END'
#include <rivetgnome.h>
#include <stdio.h>

int main(void)
{
    uint64_t cells[6];
    rg_number n = rg_list(0x08009fffffffffff, 1, cells, 6);
    printf("%d %d %d %llx\n", rg_version() == RG_VERSION, n.refusal, (int)n.value, (unsigned long long)cells[5]);
    return 0;
}
END
told='1 0 6 8109bffffffffff'

# built NAME FOLDER: use.c against the library that pkg-config finds in FOLDER
built() {
    export PKG_CONFIG_PATH="$2/lib/pkgconfig"
    same "$1: pkg-config's version" "$version" "$(pkg-config --modversion rivetgnome)"
    # shellcheck disable=SC2046
    gcc -o "$work/shared" "$work/use.c" $(pkg-config --cflags --libs rivetgnome)
    same "$1: against the .so" "$told" "$(LD_LIBRARY_PATH="$2/lib" "$work/shared")"
    same "$1: needs the .so" 1 "$(readelf -d "$work/shared" | grep -cF "[$soname]")"
    # shellcheck disable=SC2046
    gcc -static -o "$work/static" "$work/use.c" $(pkg-config --cflags --static --libs rivetgnome)
    same "$1: against the .a" "$told" "$("$work/static")"
}

# tried NAME FOLDER WORDS..: installs by make with WORDS, where FOLDER is to be filled
tried() {
    name=$1 into=$2
    shift 2
    make -s install BUILT=1 "$@" >"$work/log" 2>&1
    same "$name: install" 0 $?
    grep '^skipped: ' "$work/log"
    same "$name: files" "$all" "$(files "$into")"
    same "$name: bin/hexline" ok "$(echo 'check 80f3fffffffffff' | "$into/bin/hexline")"
    if [ $so = yes ]; then
        declared=$(sed -n 's/^[a-z].* \(rg_[a-z0-9_]*\)(.*/\1/p' include/rivetgnome.h | sort)
        same "$name: symbols of the .so" "$declared" "$(nm -D "$into/lib/librivetgnome.so" | awk '{ print $NF }' | sort)"
        same "$name: symbols of the .a" "$declared" "$(nm -g "$into/lib/librivetgnome.a" | awk 'NF > 1 { print $NF }' | sort)"
        if command -v pkg-config >/dev/null; then
            built "$name" "$into"
        else
            echo 'skipped: a program built by pkg-config (Debian package pkg-config)'
        fi
    fi
    make -s install BUILT=1 "$@" >/dev/null 2>&1
    same "$name: installed again" "$all" "$(files "$into")"
    echo kept >"$into/lib/other"
    make -s uninstall "$@"
    same "$name: left after uninstall" './lib/other ' "$(files "$into")"
}

tried PREFIX "$work/prefix" PREFIX="$work/prefix"
(
    PKG_CONFIG_SYSROOT_DIR="$work/stage"
    export PKG_CONFIG_SYSROOT_DIR
    tried DESTDIR "$work/stage/opt/gnome" DESTDIR="$work/stage" PREFIX=/opt/gnome
    echo "$passed $failed" >"$work/counts"
)
read -r passed failed <"$work/counts"
make -s install BUILT=1 PREFIX=relative >/dev/null 2>&1
same 'a PREFIX that is not absolute' 2 $?

echo "$passed passed, $failed failed"
[ "$failed" = 0 ]
