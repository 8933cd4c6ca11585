//! Whether a frozen set contains a range.

use crate::icu_frozen_sets::frozen::FrozenCodePointSet;
use crate::icu_frozen_sets::view::{
    FULL_BLOCK, FrozenView, last_offset, offset_count, place_by, word,
};
use crate::icu_invlist::codepointinvlist::RangeOf;
use crate::icu_zerovec::CODE_POINT_LIMIT;
use crate::support::prelude::*;
use core::ops::RangeInclusive;

/// Ranges from this number of code points on are long: their bits take more time than a search.
const LONG: u32 = 4096;

/// Returns the range `start..end` if it is long. Returns `None` if it is short, or if its first or
/// last code point is a surrogate.
#[inline(always)]
fn long_range(start: u32, end: u32) -> Option<RangeInclusive<char>> {
    if end - start < LONG {
        return None;
    }
    Some(RangeInclusive::new(
        char::from_u32(start)?,
        char::from_u32(end - 1)?,
    ))
}

/// Returns the number of consecutive ones in the word from bit `place` on.
#[inline(always)]
fn ones_from(word: u64, place: u32) -> u32 {
    (word >> place).trailing_ones()
}

/// Returns true if the block at this offset is full and has the offset that blocks that are full
/// have.
#[inline(always)]
fn is_full(table: &[u64], place: usize) -> bool {
    if place != offset_count(table) + FULL_BLOCK {
        return false;
    }
    for k in 0..16 {
        if word(table, place + k) != u64::MAX {
            return false;
        }
    }
    true
}

/// Returns the end of the word of the code point `c`, or `end` if that comes first, if the bits from `c`
/// up to there are 1. If the range `c..end` goes on and the block is full, returns the end of the block.
/// Returns `None` if one of these bits is 0. The last offset is at index `last`.
#[inline(always)]
fn past_ones(table: &[u64], last: usize, c: u32, end: u32) -> Option<u32> {
    let place = place_by(table, last, c / 1024);
    let bits = word(table, place + (c / 64 % 16) as usize);
    let past = end.min((c / 64 + 1) * 64);
    if ones_from(bits, c % 64) < past - c {
        return None;
    }
    if past < end && is_full(table, place) {
        return Some((c / 1024 + 1) * 1024);
    }
    Some(past)
}

/// Returns true if the bits of all code points in `start..end` are 1.
#[inline]
fn contains_all(table: &[u64], start: u32, end: u32) -> bool {
    let last = last_offset(table);
    let mut next = start;
    while next < end {
        match past_ones(table, last, next, end) {
            Some(past) => next = past,
            None => return false,
        }
    }
    true
}

/// Ranges in a view of a frozen set.
impl<'a> FrozenView<'a> {
    /// Returns true if `range` is not empty and the set contains all code points in it, including
    /// any surrogates between its start and its end.
    ///
    /// This tests 64 bits at a time, and 1,024 in a full block.
    #[must_use]
    #[inline]
    pub fn contains_range<R: core::ops::RangeBounds<char>>(self, range: R) -> bool {
        let (start, end) = range.deconstruct();
        let end = end.min(CODE_POINT_LIMIT);
        if start >= end {
            return false;
        }
        contains_all(self.words(), start, end)
    }
}

/// Ranges in a frozen set.
impl FrozenCodePointSet {
    /// Returns true if `range` is not empty and the set contains all code points in it, including
    /// any surrogates between its start and its end.
    ///
    /// This tests 64 bits at a time, and 1,024 in a full block. For a range of 4,096 code points or
    /// more it searches the boundaries of the set.
    #[must_use]
    #[inline]
    pub fn contains_range<R: core::ops::RangeBounds<char>>(&self, range: R) -> bool {
        let (start, end) = range.deconstruct();
        let end = end.min(CODE_POINT_LIMIT);
        if start >= end {
            return false;
        }
        match long_range(start, end) {
            Some(range) => self.as_set().contains_range(range),
            None => contains_all(self.as_words(), start, end),
        }
    }
}
