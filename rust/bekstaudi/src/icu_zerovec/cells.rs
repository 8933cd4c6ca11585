//! The work on packed bytes. A cell is the `WIDTH` bytes of one value.

use crate::icu_zerovec::raw::{cell_at, cell_below, cell_known, likely_cell_below};
use crate::icu_zerovec::ule::{AsULE, UleError};
use crate::support::AllocError;
use crate::support::prelude::*;
use core::hash::Hasher;

/// Returns the number of whole cells.
#[inline(always)]
pub(crate) fn count<T: AsULE>(bytes: &[u8]) -> usize {
    bytes.len() / T::WIDTH
}

/// Returns the number of values in packed bytes.
#[inline(always)]
pub(crate) fn len<T: AsULE>(bytes: &[u8]) -> usize {
    count::<T>(bytes)
}

/// Returns the value of the cell at index `i`, or `None` if the cell is not a value.
#[inline(always)]
pub(crate) fn read<T: AsULE>(bytes: &[u8], i: usize) -> Option<T> {
    T::from_unaligned(cell_at(bytes, T::WIDTH, i))
}

/// Returns the value at index `i` of packed bytes, or `None` if `i` is not less than the length.
#[inline(always)]
pub(crate) fn get<T: AsULE>(bytes: &[u8], i: usize) -> Option<T> {
    if i < count::<T>(bytes) {
        read(bytes, i)
    } else {
        None
    }
}

/// Returns the value at index `i` of packed bytes if `i` is less than `end`, which is at most the
/// length, and otherwise `None`.
#[inline(always)]
pub(crate) fn get_below<T: AsULE>(bytes: &[u8], end: usize, i: usize) -> Option<T> {
    match cell_below(bytes, T::WIDTH, end, i) {
        Some(cell) => T::from_unaligned(cell),
        None => None,
    }
}

/// Returns what [`get_below`] returns, for an index that is usually less than `end`.
#[inline(always)]
pub(crate) fn get_likely_below<T: AsULE>(bytes: &[u8], end: usize, i: usize) -> Option<T> {
    match likely_cell_below(bytes, T::WIDTH, end, i) {
        Some(cell) => T::from_unaligned(cell),
        None => None,
    }
}

/// Returns the value at index `i` of packed bytes, or `None` if `i` is not less than the length. If
/// `is_inside` is true, `i` must be less.
#[inline(always)]
pub(crate) fn get_known<T: AsULE>(bytes: &[u8], i: usize, is_inside: bool) -> Option<T> {
    match cell_known(bytes, T::WIDTH, i, is_inside) {
        Some(cell) => T::from_unaligned(cell),
        None => None,
    }
}

/// Returns the packed bytes of the first `end` values.
#[inline(always)]
pub(crate) fn prefix<T: AsULE>(bytes: &[u8], end: usize) -> &[u8] {
    &bytes[..end * T::WIDTH]
}

/// Checks that bytes are packed values. The error is the length if it is not a multiple of the
/// width, and otherwise the first cell that is not a value.
#[inline]
pub(crate) fn test<T: AsULE>(bytes: &[u8]) -> Result<(), UleError> {
    if bytes.len() % T::WIDTH != 0 {
        return Err(UleError::Length);
    }
    for i in 0..count::<T>(bytes) {
        if read::<T>(bytes, i).is_none() {
            return Err(UleError::Cell(i));
        }
    }
    Ok(())
}

/// Packs the values that an iterator yields. Allocates once if the iterator knows how many values
/// it has.
#[inline]
pub(crate) fn pack<T: AsULE, I: Iterator<Item = T>>(values: I) -> Result<Vec<u8>, AllocError> {
    let least = values.size_hint().0;
    let mut bytes = Vec::with_room(least.saturating_mul(T::WIDTH))?;
    for value in values {
        let cell = value.to_unaligned();
        bytes.try_extend_from_slice(&cell[..T::WIDTH])?;
    }
    Ok(bytes)
}

/// Returns the first value of packed bytes and the bytes of the others, or `None` if there are no
/// bytes.
#[inline(always)]
pub(crate) fn split_first<T: AsULE>(bytes: &[u8]) -> Option<(T, &[u8])> {
    if bytes.is_empty() {
        return None;
    }
    // One test ends a loop over the cells, so the compiler vectorises it.
    let (first, others) = bytes.split_at_checked(T::WIDTH)?;
    let value = T::from_unaligned(first)?;
    Some((value, others))
}

/// Returns the value at index `i` of packed bytes. The contract requires that `i` is less than the
/// length, so no code tests it.
#[inline(always)]
pub(crate) fn at<T: AsULE>(bytes: &[u8], i: usize) -> T {
    match read(bytes, i) {
        Some(value) => value,
        None => unreachable!(),
    }
}

/// Returns true if two values have the same bytes.
#[inline]
fn alike<T: AsULE>(x: T, y: T) -> bool {
    x.to_unaligned() == y.to_unaligned()
}

/// Returns how many bytes to compare next. Comparing a block of bytes is fast; only a block that
/// differs is compared value by value.
#[inline]
fn block(left: usize) -> usize {
    if left < 1024 { left } else { 1024 }
}

/// Returns how many bytes at the start are equal, in whole blocks. If all bytes are equal, returns
/// their number.
#[inline]
fn same_blocks(a: &[u8], b: &[u8]) -> usize {
    let mut at = 0;
    while at < a.len() {
        let step = block(a.len() - at);
        if a[at..at + step] != b[at..at + step] {
            return at;
        }
        at += step;
    }
    at
}

/// Returns true if two lists of values are equal. Compares bytes, and values only from the first
/// block of bytes that differs.
#[inline]
pub(crate) fn same<T: AsULE>(a: &[u8], b: &[u8]) -> bool {
    let len = len::<T>(a);
    if len != self::len::<T>(b) {
        return false;
    }
    for i in same_blocks(a, b) / T::WIDTH..len {
        if !alike(at::<T>(a, i), at::<T>(b, i)) {
            return false;
        }
    }
    true
}

/// Feeds the bytes of a value to a hasher.
#[inline]
fn feed_one<T: AsULE, H: Hasher>(value: T, state: &mut H) {
    let cell = value.to_unaligned();
    state.write(&cell[..T::WIDTH]);
}

/// Feeds the number of values and the bytes of each value to a hasher.
#[inline]
pub(crate) fn feed<T: AsULE, H: Hasher>(bytes: &[u8], state: &mut H) {
    let len = len::<T>(bytes);
    state.write_usize(len);
    for i in 0..len {
        feed_one(at::<T>(bytes, i), state);
    }
}
