//! Iterators over the ranges and the characters of a set.

use crate::icu_zerovec::iter::Iter;
use crate::icu_zerovec::ule::AsULE;
use crate::icu_zerovec::{CODE_POINT_LIMIT, PotentialCodePoint, ZeroVec};
use crate::support::prelude::*;
use core::fmt;
use core::mem::take;
use core::ops::RangeInclusive;

/// An iterator over the ranges of a set, in ascending order.
/// [`iter_ranges`](crate::icu_invlist::codepointinvlist::CodePointInversionList::iter_ranges) returns it.
///
/// It knows how many ranges are left.
#[derive(Clone)]
#[must_use = "iterators are lazy and do nothing unless consumed"]
pub struct IterRanges<'a> {
    /// The packed boundaries that are left: six bytes for each range.
    bytes: &'a [u8],
}

impl<'a> IterRanges<'a> {
    /// Returns an iterator over the ranges with these packed boundaries.
    #[inline]
    pub(crate) fn from_bytes(bytes: &'a [u8]) -> Self {
        IterRanges { bytes }
    }
}

/// Formats the boundaries that are left as a list.
impl<'a> fmt::Debug for IterRanges<'a> {
    #[inline]
    fn fmt(&self, f: &mut fmt::Formatter<'_>) -> fmt::Result {
        match ZeroVec::<PotentialCodePoint>::parse_bytes(self.bytes) {
            Ok(ends) => f.debug_struct("IterRanges").field("ends", &ends).finish(),
            Err(_) => unreachable!(),
        }
    }
}

impl<'a> Iterator for IterRanges<'a> {
    type Item = RangeInclusive<u32>;

    #[inline]
    fn next(&mut self) -> Option<RangeInclusive<u32>> {
        if self.bytes.is_empty() {
            return None;
        }
        // Each range has six bytes, so at least six are left.
        let (range, others) = self.bytes.split_at(6);
        self.bytes = others;
        let start = PotentialCodePoint::from_unaligned(&range[..3])?;
        let end = PotentialCodePoint::from_unaligned(&range[3..6])?;
        Some(RangeInclusive::new(u32::from(start), u32::from(end) - 1))
    }
    #[inline]
    fn size_hint(&self) -> (usize, Option<usize>) {
        let len = self.bytes.len() / 6;
        (len, Some(len))
    }
}

impl<'a> ExactSizeIterator for IterRanges<'a> {
    #[inline]
    fn len(&self) -> usize {
        self.bytes.len() / 6
    }
}

/// An iterator over the ranges of code points that are not in a set, in ascending order.
/// [`iter_ranges_complemented`](crate::icu_invlist::codepointinvlist::CodePointInversionList::iter_ranges_complemented)
/// returns it.
#[derive(Debug, Clone)]
#[must_use = "iterators are lazy and do nothing unless consumed"]
pub struct IterRangesComplemented<'a> {
    start: Option<u32>,
    ends: Iter<'a, PotentialCodePoint>,
}

/// Returns the start of the next gap, given the exclusive end of the set's range before it. There
/// is no gap if that end is the end of the code space.
#[inline]
pub(crate) fn start_of_gap(end: Option<PotentialCodePoint>) -> Option<u32> {
    let end = u32::from(end?);
    if end < CODE_POINT_LIMIT {
        Some(end)
    } else {
        None
    }
}

impl<'a> IterRangesComplemented<'a> {
    /// Returns an iterator over the gaps from `start` on. `ends` are the set's boundaries after
    /// that start.
    #[inline]
    pub(crate) fn from_gap(start: Option<u32>, ends: Iter<'a, PotentialCodePoint>) -> Self {
        IterRangesComplemented { start, ends }
    }
}

impl<'a> Iterator for IterRangesComplemented<'a> {
    type Item = RangeInclusive<u32>;

    #[inline]
    fn next(&mut self) -> Option<RangeInclusive<u32>> {
        let start = self.start?;
        match self.ends.next() {
            None => {
                self.start = None;
                Some(RangeInclusive::new(start, CODE_POINT_LIMIT - 1))
            }
            Some(end) => {
                self.start = start_of_gap(self.ends.next());
                Some(RangeInclusive::new(start, u32::from(end) - 1))
            }
        }
    }

    #[inline]
    fn size_hint(&self) -> (usize, Option<usize>) {
        (self.len(), Some(self.len()))
    }
}

/// An iterator over the characters in a set, in ascending order.
/// [`iter_chars`](crate::icu_invlist::codepointinvlist::CodePointInversionList::iter_chars) returns it.
#[derive(Debug, Clone)]
#[must_use = "iterators are lazy and do nothing unless consumed"]
pub struct IterChars<'a> {
    next: u32,
    end: u32,
    /// What `next_back`, which only the Rust edition has, left of the last range: inclusive start,
    /// exclusive end. `next` yields it after the ranges of `ends`.
    last: (u32, u32),
    ends: Iter<'a, PotentialCodePoint>,
}

impl<'a> IterChars<'a> {
    /// Returns an iterator over the characters in the ranges with these boundaries.
    #[inline]
    pub(crate) fn from_ends(ends: Iter<'a, PotentialCodePoint>) -> Self {
        IterChars {
            next: 0,
            end: 0,
            last: (0, 0),
            ends,
        }
    }
}

/// Does what [`take_char`] does if `next` is no character: passes all surrogates in one step.
#[cold]
fn take_past_surrogates(next: &mut u32, end: u32) -> Option<char> {
    if *next < 0xE000 {
        *next = 0xE000;
    }
    if end <= *next {
        return None;
    }
    let c = char::from_u32(*next);
    *next += 1;
    c
}

/// Returns the first character from `next` to `end` exclusive and moves `next` past it. Skips
/// surrogates.
///
/// There is no loop here: LLVM vectorises one, as if it had far to search for each character.
#[inline(always)]
fn take_char(next: &mut u32, end: u32) -> Option<char> {
    if *next >= end {
        return None;
    }
    let c = char::from_u32(*next);
    if c.is_none() {
        return take_past_surrogates(next, end);
    }
    *next += 1;
    c
}

impl<'a> Iterator for IterChars<'a> {
    type Item = char;

    #[inline]
    fn next(&mut self) -> Option<char> {
        loop {
            let found = take_char(&mut self.next, self.end);
            if found.is_some() {
                return found;
            }
            let (Some(start), Some(end)) = (self.ends.next(), self.ends.next()) else {
                if self.last.0 >= self.last.1 {
                    return None;
                }
                (self.next, self.end) = take(&mut self.last);
                continue;
            };
            self.next = u32::from(start);
            self.end = u32::from(end);
        }
    }

    /// Counts the characters of ranges that have begun, and of the others if there is one.
    fn size_hint(&self) -> (usize, Option<usize>) {
        let begun =
            count_characters(self.next, self.end) + count_characters(self.last.0, self.last.1);
        let (first, last) = (self.ends.clone().next(), self.ends.clone().next_back());
        let others = match (first, last) {
            (Some(first), Some(last)) => count_characters(u32::from(first), u32::from(last)),
            _ => 0,
        };
        let least = if self.ends.len() == 2 {
            begun + others
        } else {
            begun
        };
        (least, Some(begun + others))
    }
}

impl DoubleEndedIterator for IterRanges<'_> {
    #[inline]
    fn next_back(&mut self) -> Option<RangeInclusive<u32>> {
        let (others, range) = self.bytes.split_last_chunk::<6>()?;
        self.bytes = others;
        let start = PotentialCodePoint::from_unaligned(&range[..3])?;
        let end = PotentialCodePoint::from_unaligned(&range[3..6])?;
        Some(RangeInclusive::new(u32::from(start), u32::from(end) - 1))
    }
}

impl IterRangesComplemented<'_> {
    /// Returns true if the last gap ends at the end of the code space. It then has no boundary, so
    /// the number of boundaries that are left is even.
    #[inline]
    fn has_gap_at_end(&self) -> bool {
        let last = self.ends.clone().next_back();
        self.ends.len().is_multiple_of(2) && last.is_none_or(|it| u32::from(it) < CODE_POINT_LIMIT)
    }
}

impl ExactSizeIterator for IterRangesComplemented<'_> {
    #[inline]
    fn len(&self) -> usize {
        match self.start {
            Some(_) => self.ends.len().div_ceil(2) + usize::from(self.has_gap_at_end()),
            None => 0,
        }
    }
}

impl DoubleEndedIterator for IterRangesComplemented<'_> {
    fn next_back(&mut self) -> Option<RangeInclusive<u32>> {
        let first = self.start?;
        let mut end = CODE_POINT_LIMIT;
        if !self.has_gap_at_end() {
            // The last boundary of a set with U+10FFFF ends the set, and is the end of no gap.
            if self.ends.len().is_multiple_of(2) {
                self.ends.next_back()?;
            }
            end = u32::from(self.ends.next_back()?);
        }
        let start = self.ends.next_back().map(u32::from);
        if start.is_none() {
            self.start = None;
        }
        Some(start.unwrap_or(first)..=end - 1)
    }
}

/// Returns the number of characters from `start` to `end` exclusive.
#[inline]
fn count_characters(start: u32, end: u32) -> usize {
    let below = |c: u32| c - c.saturating_sub(0xD800).min(0x800);
    below(end).saturating_sub(below(start)) as usize
}

/// Returns the last character from `start` to `end` exclusive and moves `end` to it. Skips
/// surrogates.
#[inline]
fn take_last(start: u32, end: &mut u32) -> Option<char> {
    if let 0xD801..=0xE000 = *end {
        *end = start.max(0xD800);
    }
    if *end <= start {
        return None;
    }
    *end -= 1;
    char::from_u32(*end)
}

impl DoubleEndedIterator for IterChars<'_> {
    #[inline]
    fn next_back(&mut self) -> Option<char> {
        loop {
            let found = take_last(self.last.0, &mut self.last.1);
            if found.is_some() {
                return found;
            }
            let Some(end) = self.ends.next_back() else {
                return take_last(self.next, &mut self.end);
            };
            let start = self.ends.next_back()?;
            self.last = (u32::from(start), u32::from(end));
        }
    }
}
