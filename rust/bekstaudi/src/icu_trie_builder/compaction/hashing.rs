//! Rolling hashes of windows of cells: the hash of a window is computed from that of the previous
//! one, in constant time for any length.

use crate::support::prelude::*;
/// The base of the hash: an odd number near 2^64 divided by the golden ratio.
const FACTOR: u64 = 0x9e37_79b9_7f4a_7c15;

/// Returns the share of a cell in a hash: its square.
#[inline]
fn share_of(cell: u32) -> u64 {
    u64::from(cell).wrapping_mul(u64::from(cell))
}

/// Returns the hash of some cells.
#[inline]
pub(crate) fn hash_of(cells: &[u32]) -> u64 {
    let mut hash = 0u64;
    for cell in cells {
        hash = hash.wrapping_add(share_of(*cell)).wrapping_mul(FACTOR);
    }
    hash
}

/// Returns the factor for a cell that leaves a window of `size` cells: adding the cell's share
/// times this factor removes the cell from the hash.
#[inline]
pub(crate) fn leaving_factor_of(size: usize) -> u64 {
    let mut factor = u64::MAX;
    for _ in 0..size {
        factor = factor.wrapping_mul(FACTOR);
    }
    factor
}

/// Returns the hash of the window after the one at `at`, given the hash of that one. If there is no
/// further window, returns `hash` unchanged.
#[inline]
pub(crate) fn hash_after(cells: &[u32], at: usize, size: usize, leaving: u64, hash: u64) -> u64 {
    if at + size >= cells.len() {
        return hash;
    }
    let kept = hash.wrapping_add(share_of(cells[at]).wrapping_mul(leaving));
    kept.wrapping_add(share_of(cells[at + size]))
        .wrapping_mul(FACTOR)
}
