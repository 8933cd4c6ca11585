//! The numbers in a range, and the validity of an inversion list.

pub use crate::icu_invlist::codepointinvlist::range_of::{RangeOf, RangePoint};
use crate::icu_invlist::codepointinvlist::sizes::valid_size;
use crate::icu_zerovec::{CODE_POINT_LIMIT, PotentialCodePoint, ZeroVec};
use crate::support::prelude::*;

/// Returns the inclusive start and the exclusive end of a range.
///
/// A missing start is 0, and a missing end is 0x110000. An included end of `u32::MAX` has no
/// successor and becomes the exclusive end itself: `0..=u32::MAX` gives `(0, u32::MAX)`.
#[must_use]
#[inline]
pub fn deconstruct_range<X: RangePoint, R: core::ops::RangeBounds<X>>(range: R) -> (u32, u32) {
    range.deconstruct()
}

/// Returns true if `ends` is an inversion list: its length is even, it is strictly ascending, and
/// no number is above 0x110000.
///
/// `[0x41, 0x5B]` and the empty list are inversion lists, and `[1, 2, 2, 3]` is not.
#[must_use]
#[inline]
pub fn is_valid_zv(ends: &ZeroVec<'_, PotentialCodePoint>) -> bool {
    valid_size(ends).is_some()
}

/// Returns true if the numbers ascend strictly. The loop looks at all of them, so LLVM vectorises it.
#[inline]
fn ascend(ends: &[u32]) -> bool {
    let mut falls = false;
    for i in 1..ends.len() {
        falls |= ends[i] <= ends[i - 1];
    }
    !falls
}

/// Returns true if `ends` is an inversion list. The same test as `is_valid_zv`, for numbers that
/// are not packed yet.
#[must_use]
#[inline]
pub fn is_valid_slice(ends: &[u32]) -> bool {
    if !ends.len().is_multiple_of(2) {
        return false;
    }
    match ends.last() {
        Some(last) => *last <= CODE_POINT_LIMIT && ascend(ends),
        None => true,
    }
}
