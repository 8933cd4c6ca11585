#!/bin/sh
# Measures the Rust edition, plain Rust and ICU as run.sh does: as it is, and with its feature
# proved-reads. It needs no `rt`.
#
# Usage: bench/rust.sh [KERNEL..]
set -eu
exec "$(dirname -- "$(readlink -f -- "$0")")/run.sh" proved-reads "$@"
