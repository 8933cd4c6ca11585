#!/bin/sh
# Measures this repository's C functions, ICU4C, GLib, utf8proc, libunistring, libmarisa, libdatrie
# and C++'s hash map over the same data in one run, and prints a page in Markdown. README.md says
# what is measured and how to read it.
#
# Usage: bench/peers.sh [ROW..]     points, texts, keys, longest, sizes, or a prefix of one; else all
#
# PAGE=FILE also writes the page there: bench/peers.md is made so.
set -eu
here=$(dirname -- "$(readlink -f -- "$0")")
c=$here/../c

stop() { echo "peers: $1" >&2; exit 70; }
for tool in g++ pkg-config python3; do
    command -v $tool >/dev/null || stop "no $tool"
done
# needs HEADER PACKAGE
needs() {
    echo "#include <$1>" | g++ -x c++ $glib -E - >/dev/null 2>&1 || stop "no $1: install $2"
}
glib=$(pkg-config --cflags glib-2.0 2>/dev/null) || stop "no glib-2.0: install libglib2.0-dev"
needs glib.h libglib2.0-dev
needs unicode/ucptrie.h libicu-dev
needs utf8proc.h libutf8proc-dev
needs unictype.h libunistring-dev
needs marisa.h libmarisa-dev
needs datrie/trie.h libdatrie-dev
[ -f "$c/out/libbekstaudi.a" ] || "$c/build" --cargo || stop "the library for C is not built"

work=$(mktemp -d)
trap 'rm -rf "$work"' EXIT
trap 'exit 130' INT TERM
for file in "$here"/peers/*.cpp "$here"/driver/common.cpp "$here"/driver/data.cpp \
    "$here"/driver/heap.cpp "$here"/driver/lists.cpp; do
    g++ -std=c++17 -O3 -march=x86-64-v2 $glib \
        -DMARISA="\"$(pkg-config --modversion marisa)\"" \
        -DDATRIE="\"$(pkg-config --modversion datrie-0.2)\"" \
        -c -o "$work/$(basename "$file" .cpp).o" "$file"
done

# As in run.sh, all code is measured at four offsets.
for shift in 0 16 32 48; do
    {
        echo '.section .note.GNU-stack,"",@progbits'
        printf '.section %s,"ax",@progbits\n.p2align 6\n.fill %d\n' .text.unlikely "$shift" .text "$shift"
    } | gcc -x assembler -c -o "$work/shift" -
    g++ -o "$work/peers" "$work/shift" "$work"/*.o "$c/out/libbekstaudi.a" \
        -licuuc -lglib-2.0 -lutf8proc -lunistring -lmarisa -ldatrie
    echo "peers: measures, our code $shift bytes past a multiple of 64" >&2
    "$work/peers" "$@" >"$work/measured.$shift"
done
python3 "$here/peers/report.py" "$(cat "$c/out/made-by")" "$work"/measured.* >"$work/page"
cat "$work/page"
[ -z "${PAGE:-}" ] || cp "$work/page" "$PAGE"
