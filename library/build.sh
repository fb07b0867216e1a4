#!/bin/bash
# Builds library/out/libedicad.a and library/out/libedicad.so; with --built it takes those that are there. With --install PREFIX it puts them,
# the header and edicad.pc below PREFIX, or below DESTDIR and PREFIX.
set -eu
top=$(cd "$(dirname "$0")/.." && pwd)
here=$top/library
out=$here/out
version=1
kit=$(cd "$(dirname "$(readlink -f "$(command -v rt)")")/.." && pwd)
cc=${CC:-cc}

usage() {
    echo "usage: build.sh [--built] [--install PREFIX]" >&2
    exit 3
}

# The proved library and what it needs of the toolchain, as one object in which only the names of the header are global.
build() {
    (cd "$top/crates/edicad_c" && rt lib --jobs "${JOBS:-1}" >&2)
    rm -rf "$out"
    mkdir -p "$out/parts"
    (cd "$out/parts" && ar x "$top/crates/edicad_c/out/libedicad_c.a" && ar x "$kit/c/liblibc_c.a")
    ld -r -o "$out/edicad.o" "$out"/parts/*.o
    objcopy --wildcard --keep-global-symbol='edicad_*' "$out/edicad.o"
    ar rcsD "$out/libedicad.a" "$out/edicad.o"
    "$cc" -shared -o "$out/libedicad.so.$version" "$out/edicad.o" -Wl,-soname,"libedicad.so.$version" -Wl,--version-script="$here/edicad.map" \
        -Wl,-z,defs -Wl,-z,now -Wl,-z,relro -Wl,-z,noexecstack
    ln -sf "libedicad.so.$version" "$out/libedicad.so"
    rm -rf "$out/parts" "$out/edicad.o"
}

install_below() {
    local prefix=$1 root=${DESTDIR:-}$1
    install -d "$root/lib/pkgconfig" "$root/include"
    install -m 644 "$here/edicad.h" "$root/include/edicad.h"
    install -m 644 "$out/libedicad.a" "$root/lib/libedicad.a"
    install -m 755 "$out/libedicad.so.$version" "$root/lib/libedicad.so.$version"
    ln -sf "libedicad.so.$version" "$root/lib/libedicad.so"
    sed "s|@PREFIX@|$prefix|; s|@VERSION@|$version|" "$here/edicad.pc.in" >"$root/lib/pkgconfig/edicad.pc"
}

is_built=no
prefix=
while [ $# -gt 0 ]; do
    case "$1" in
    --built) is_built=yes ;;
    --install) [ $# -gt 1 ] || usage; prefix=$2; shift ;;
    *) usage ;;
    esac
    shift
done
[ "$is_built" = yes ] || build
[ -z "$prefix" ] || install_below "$prefix"
