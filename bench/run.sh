#!/bin/sh
# Measures this repository, ICU4C and plain Rust over the same data in one run, and prints Markdown:
# the rows of each kernel, and a summary. README.md says what is measured and how to read it.
#
# Usage: bench/run.sh [BUILD] [KERNEL..]     a kernel's name or a prefix of it; all kernels if none is given
#
#   both           the proved build and the Rust edition, in turns. The default
#   proved         only the proved build, which needs `rt`
#   edition        only the Rust edition, which needs rustc and cargo
#   proved-reads   the edition as it is, and with its feature proved-reads
#
# TABLES=FOLDER adds the tables NAME.txt of a folder to those of data and tests/data. CODE=FOLDER writes the
# machine code there. PAGE=FILE also writes what the page bench/results.md has.
set -eu
here=$(dirname -- "$(readlink -f -- "$0")")
root=$here/..

stop() { echo "bench: $1" >&2; exit 70; }
which=both
case "${1:-}" in both | proved | edition | proved-reads) which=$1; shift ;; esac
for tool in rustc cargo g++ python3; do
    command -v "$tool" >/dev/null || stop "no $tool"
done
echo '#include <unicode/ucptrie.h>' | g++ -x c++ -E - >/dev/null 2>&1 ||
    stop "no ICU: install libicu-dev"

work=$(mktemp -d)
trap 'rm -rf "$work"' EXIT
trap 'exit 130' INT TERM

# The driver calls this repository through a static library of the loops in ours/. They are not in
# crates.txt, so that `rt ci` need not prove them: a copy of the repository has them as a crate.
DEPS="icu_zerovec icu_invlist icu_frozen_sets icu_trie icu_trie_text icu_trie_binary icu_trie_builder"
DEPS="$DEPS icu_char16trie icu_char16trie_builder"
with_loops() {
    mkdir -p "$work/copy/crates/bench_ours/src"
    tar -C "$root" --exclude=out -cf - crates crates.txt HANDLES tests | tar -C "$work/copy" -xf -
    # The libraries that `rt ci` proved in this clone.
    for library in "$root"/crates/*/out/rlib; do
        [ -d "$library" ] || continue
        mkdir -p "$work/copy/${library#"$root"/}"
        cp -rl "$library/." "$work/copy/${library#"$root"/}" 2>/dev/null ||
            cp -r "$library/." "$work/copy/${library#"$root"/}"
    done
    for file in "$here"/ours/*.rs; do
        cp "$file" "$work/copy/crates/bench_ours/src/$(basename -- "$file" .rs).rt"
    done
    echo "bench_ours staticlib: $DEPS" >>"$work/copy/crates.txt"
}

# Each build is the libraries that it is linked from, joined by commas.
proved=
case $which in both | proved)
    command -v rt >/dev/null || stop "no rt: put the kit's folder bin on PATH"
    heap=$(dirname -- "$(dirname -- "$(readlink -f -- "$(command -v rt)")")")/c/liblibc_c.a
    echo "bench: proves and builds; from a clean clone this takes some minutes" >&2
    with_loops
    ours=$("$work/copy/tests/compile" bench_ours) || stop "the loops in bench/ours are not proved and built"
    "$root/c/build" --proved --out "$work/proved-c" || stop "the library for C is not built"
    proved=$ours,$work/proved-c/libbekstaudi.a,$heap
    ;;
esac
edition=
[ "$which" = proved ] || {
    [ "$which" = proved-reads ] && forms="safe proved-reads" || forms=safe
    # shellcheck disable=SC2086
    python3 "$here/edition.py" "$work" $forms
    "$root/c/build" --cargo --out "$work/edition-c" || stop "the library for C is not built"
    edition=$work/safe.a,$work/edition-c/libbekstaudi.a
}
builds="$proved $edition"
[ "$which" != proved-reads ] || builds="$edition $work/proved-reads.a,$work/edition-c/libbekstaudi.a"

# As tests/compile has clang do, and edition.py rustc.
aligned="-falign-loops=32 -Wa,-mbranches-within-32B-boundaries"
mkdir "$work/driver"
for file in "$here"/driver/*.cpp; do
    g++ -std=c++17 -O3 -march=x86-64-v2 $aligned -c -o "$work/driver/$(basename "$file" .cpp).o" "$file"
done
rustc --edition 2024 -O -C target-cpu=x86-64-v2 -C panic=abort --crate-type staticlib \
    -C "llvm-args=-x86-branches-within-32B-boundaries -align-loops=32" -o "$work/libpeer.a" "$here/peer/lib.rs"
# shellcheck disable=SC2086
python3 "$here/isolate.py" "$work" "$work"/driver/*.o -- "$work/libpeer.a" $builds
if [ -n "${CODE:-}" ]; then
    mkdir -p "$CODE"
    for object in "$work"/build*.o "$work/peer.o"; do
        objdump -dC --no-show-raw-insn "$object" >"$CODE/$(basename "$object" .o).s"
    done
    objdump -dC --no-show-raw-insn "$work"/driver/*.o >"$CODE/icu.s"
fi

# On some processors a loop takes half as long again at some code addresses, so all code is measured
# at four offsets. What compilers mark as cold, as look-ups above the fast limit, is placed apart.
set -- -- "$@"
for table in "$root"/data/*.runs.txt "$root"/tests/data/*.runs.txt ${TABLES:+"$TABLES"/*.runs.txt}; do
    set -- "${table%.runs.txt}.txt" "$@"
done
for shift in 0 16 32 48; do
    {
        echo '.section .note.GNU-stack,"",@progbits'
        printf '.section %s,"ax",@progbits\n.p2align 6\n.fill %d\n' .text.unlikely "$shift" .text "$shift"
    } | gcc -x assembler -c -o "$work/shift" -
    g++ -Wl,--gc-sections -o "$work/bench" "$work/shift" "$work"/driver/*.o "$work"/build*.o "$work/peer.o" \
        "$work/slots.o" -licuuc
    echo "bench: measures, our code $shift bytes past a multiple of 64" >&2
    "$work/bench" "$@" >>"$work/measured.$shift"
done
case $which in
both) names="proved edition" ;;
proved-reads) names="edition proved-reads" ;;
*) names=$which ;;
esac
# shellcheck disable=SC2086
python3 "$here/report.py" ${PAGE:+--page "$PAGE"} --builds $names -- "$work"/measured.*
