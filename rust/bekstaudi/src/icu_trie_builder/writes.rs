//! Writes to a map from code points.

pub use crate::icu_zerovec::memory::ApplyRefused;
use crate::support::prelude::*;
use core::ops::RangeInclusive;

/// One write to a map from code points.
///
/// A write is accepted if its range is not reversed and it starts at or below 0x10FFFF; code points
/// above 0x10FFFF are then ignored. Any other write changes nothing. The default can be written
/// like any other value, and then undoes earlier writes.
#[derive(Clone, Debug, PartialEq, Eq, Hash)]
pub enum Write<T> {
    /// Sets one code point to a value.
    One(u32, T),
    /// Sets each code point of a range, both bounds inclusive, to a value.
    Range(RangeInclusive<u32>, T),
}
