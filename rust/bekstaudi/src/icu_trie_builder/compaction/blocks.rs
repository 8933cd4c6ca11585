//! Blocks of cells, and how far a block overlaps the end of other cells.

use crate::support::prelude::*;
/// Returns block number `number` of `size` cells.
#[inline]
pub(crate) fn block_at(cells: &[u32], size: usize, number: usize) -> &[u32] {
    &cells[size * number..size * number + size]
}

/// Returns the length of the longest tail of `stored`, shorter than `wanted`, that equals a prefix
/// of `wanted`.
#[inline]
pub(crate) fn overlap(stored: &[u32], wanted: &[u32]) -> usize {
    let mut common = (wanted.len() - 1).min(stored.len());
    while common > 0 {
        if stored[stored.len() - common..] == wanted[..common] {
            return common;
        }
        common -= 1;
    }
    0
}
