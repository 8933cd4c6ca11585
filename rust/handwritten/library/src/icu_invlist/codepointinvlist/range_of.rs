//! Types that are ranges of numbers, in place of the source's module `range_of`.
//!
//! The contract of `RangeBounds` in Rattle says nothing of a range that was iterated to its end, so the
//! source implements [`RangeOf`] for each of the six types of ranges. Here one impl is for all types
//! that implement [`RangeBounds`], which the Rust crate accepts and which user-defined types may
//! implement. What a range contains is as in the source; if `a..=b` was iterated to its end, its end
//! bound is excluded.

use crate::icu_zerovec::CODE_POINT_LIMIT;
use core::ops::{Bound, RangeBounds};

/// A type that ranges can be made of: `char` or `u32`.
pub trait RangePoint: Copy {
    /// Returns the number of the value; for a character, its code point.
    #[must_use]
    fn number(self) -> u32;
}

impl RangePoint for char {
    #[inline]
    fn number(self) -> u32 {
        u32::from(self)
    }
}

impl RangePoint for u32 {
    #[inline]
    fn number(self) -> u32 {
        self
    }
}

/// A range of `char` or of `u32`: `a..b`, `a..=b`, `a..`, `..b`, `..=b` or `..`.
///
/// It contains all numbers from its start to its end, so a range of characters includes the
/// surrogates between them.
pub trait RangeOf<X: RangePoint> {
    /// Returns the inclusive start and the exclusive end.
    fn deconstruct(self) -> (u32, u32);
}

/// Every `RangeBounds` is a range. It contains the numbers between its bounds, except that
/// `u32::MAX` as an included upper bound counts as an excluded one, since no number follows it.
impl<X: RangePoint, R: RangeBounds<X>> RangeOf<X> for R {
    fn deconstruct(self) -> (u32, u32) {
        let start = match self.start_bound() {
            Bound::Included(start) => start.number(),
            Bound::Excluded(before) => before.number().saturating_add(1),
            Bound::Unbounded => 0,
        };
        let end = match self.end_bound() {
            Bound::Included(last) => last.number().saturating_add(1),
            Bound::Excluded(end) => end.number(),
            Bound::Unbounded => CODE_POINT_LIMIT,
        };
        (start, end)
    }
}
