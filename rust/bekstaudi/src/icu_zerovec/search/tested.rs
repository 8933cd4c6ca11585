//! The search by std's partition point of chunks, which rustc optimizes well.

use crate::icu_zerovec::ule::AsULE;
use crate::support::prelude::*;
use core::cmp::Ordering;

/// Compares the value of a cell with `x`. The width is a constant, so rustc leaves no test of it.
#[inline(always)]
fn order_of<T: AsULE + Ord>(cell: &[u8], x: &T) -> Ordering {
    if cell.len() != T::WIDTH {
        return Ordering::Greater;
    }
    match T::from_unaligned(cell) {
        Some(value) => value.cmp(x),
        None => Ordering::Greater,
    }
}

/// Searches ascending cells by std's partition point.
///
/// Both results have the same index, so rustc needs no jump on equality. `binary_search_by` ends with
/// one, which processors often predict wrongly.
#[inline(always)]
fn search_chunks<const WIDTH: usize, T: AsULE + Ord>(bytes: &[u8], x: &T) -> Result<usize, usize> {
    let cells = bytes.as_chunks::<WIDTH>().0;
    let low =
        cells.partition_point(|cell: &[u8; WIDTH]| -> bool { order_of::<T>(cell, x).is_lt() });
    match cells.get(low) {
        Some(cell) if order_of::<T>(cell, x).is_eq() => Ok(low),
        _ => Err(low),
    }
}

/// Searches ascending packed bytes for `x`. Returns the index of an equal value as `Ok`, or as `Err`
/// the index at which `x` could be inserted.
#[inline]
pub(crate) fn binary_search<T: AsULE + Ord>(bytes: &[u8], x: &T) -> Result<usize, usize> {
    match T::WIDTH {
        1 => search_chunks::<1, T>(bytes, x),
        2 => search_chunks::<2, T>(bytes, x),
        3 => search_chunks::<3, T>(bytes, x),
        _ => search_chunks::<4, T>(bytes, x),
    }
}
