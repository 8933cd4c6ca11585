//! The immutable set of code points, stored as an inversion list.

use crate::support::prelude::*;
mod places;
mod stretches;
mod subsets;
mod words;

use crate::icu_invlist::codepointinvlist::error::{InvalidSetError, SetError};
use crate::icu_invlist::codepointinvlist::iter::{
    IterChars, IterRanges, IterRangesComplemented, start_of_gap,
};
use crate::icu_invlist::codepointinvlist::range_of::RangeOf;
use crate::icu_invlist::codepointinvlist::sizes::{size_of, valid_size};
use crate::icu_invlist::codepointinvlist::utils::is_valid_slice;
use crate::icu_invlist::packing::{cut_to_points, pack, sum_of_sizes, unpack, unpacked};
use crate::icu_zerovec::ule::AsULE;
use crate::icu_zerovec::{CODE_POINT_LIMIT, MemoryError, PotentialCodePoint, ZeroSlice, ZeroVec};
use core::ops::RangeInclusive;
use stretches::Stretch;

/// An immutable set of code points, which may include surrogates. It borrows or owns the list of
/// its boundaries.
///
/// ```
/// use bekstaudi::codepointinvlist::CodePointInversionList;
///
/// let ends = [0x41, 0x5B, 0x61, 0x7B];
/// let letters = CodePointInversionList::try_from_u32_inversion_list_slice(&ends)?;
/// assert!(letters.contains('Z') && letters.contains32(0x61));
/// assert!(!letters.contains32(0x5B));
/// assert_eq!(letters.iter_ranges().last(), Some(0x61..=0x7A));
/// assert_eq!(letters, ('A'..='Z').chain('a'..='z').collect());
/// # Ok::<(), Box<dyn std::error::Error>>(())
/// ```
#[derive(Debug)]
pub struct CodePointInversionList<'data> {
    pub(crate) ends: ZeroVec<'data, PotentialCodePoint>,
    pub(crate) size: u32,
}

/// Constructors and copies.
impl<'data> CodePointInversionList<'data> {
    /// Returns the set with this list of boundaries, and takes over the list without copying it.
    ///
    /// # Errors
    /// - `SetError::Invalid` if and only if `ends` is not an inversion list. The error contains a
    ///   copy of the list.
    /// - `SetError::Memory` if `ends` is not an inversion list and allocating that copy fails. A
    ///   valid list needs no allocation.
    #[inline]
    pub fn try_from_inversion_list_fallible(
        ends: ZeroVec<'data, PotentialCodePoint>,
    ) -> Result<Self, SetError> {
        if let Some(size) = valid_size(&ends) {
            return Ok(CodePointInversionList { ends, size });
        }
        Err(SetError::Invalid(InvalidSetError(unpacked(&ends)?)))
    }

    /// Returns the set with these boundaries, and copies them.
    ///
    /// # Errors
    /// - `SetError::Invalid` if and only if `ends` is not an inversion list. The error contains the
    ///   numbers, with 0xFFFFFF in place of any number above it.
    /// - `SetError::Memory` if an allocation fails.
    #[inline]
    pub fn try_from_u32_inversion_list_slice_fallible(ends: &[u32]) -> Result<Self, SetError> {
        if !is_valid_slice(ends) {
            return Err(SetError::Invalid(InvalidSetError(cut_to_points(ends)?)));
        }
        Ok(CodePointInversionList::from_valid_slice(ends)?)
    }

    /// Returns the set with these boundaries, and copies them.
    ///
    /// `ends` must be an inversion list: of even length, strictly ascending, and with no number
    /// above 0x110000. If that is not known, use
    /// [`try_from_u32_inversion_list_slice_fallible`](Self::try_from_u32_inversion_list_slice_fallible), which checks
    /// it.
    ///
    /// # Errors
    /// Returns `MemoryError` if an allocation fails.
    // Out of line, so that callers with an empty set inline the rest.
    #[inline(never)]
    pub(crate) fn from_valid_slice(
        ends: &[u32],
    ) -> Result<CodePointInversionList<'static>, MemoryError> {
        let size = size_of(ends);
        if !ends.len().is_multiple_of(2) {
            unreachable!();
        }
        let bytes = pack(ends)?;
        match ZeroVec::parse_owned(bytes) {
            Ok(ends) => Ok(CodePointInversionList { ends, size }),
            Err(_) => unreachable!(),
        }
    }

    /// Returns the empty set. This does not allocate.
    #[inline]
    pub(crate) fn none() -> CodePointInversionList<'static> {
        CodePointInversionList {
            ends: ZeroVec::from_packed(&[]),
            size: 0,
        }
    }

    /// Returns the set of all code points, 0 to 0x10FFFF inclusive, with surrogates. This does not
    /// allocate.
    #[must_use]
    #[inline]
    pub const fn all() -> CodePointInversionList<'static> {
        CodePointInversionList {
            ends: ZeroVec::from_packed(&[0, 0, 0, 0, 0, 0x11]),
            size: CODE_POINT_LIMIT,
        }
    }

    /// Returns the set of all code points of the Basic Multilingual Plane, 0 to 0xFFFF inclusive,
    /// with surrogates. This does not allocate.
    #[must_use]
    #[inline]
    pub const fn bmp() -> CodePointInversionList<'static> {
        CodePointInversionList {
            ends: ZeroVec::from_packed(&[0, 0, 0, 0, 0, 0x1]),
            size: 0x10000,
        }
    }

    /// Returns the same set, which then owns its boundaries. If the set already owns them, nothing
    /// is allocated or copied.
    ///
    /// # Errors
    /// Returns `MemoryError` if an allocation fails. The set is then dropped; boundaries that it
    /// borrowed are unchanged.
    #[inline]
    pub fn try_into_owned(self) -> Result<CodePointInversionList<'static>, MemoryError> {
        let CodePointInversionList { ends, size } = self;
        Ok(CodePointInversionList {
            ends: ends.try_into_owned()?,
            size,
        })
    }

    /// Returns an equal set that owns its boundaries.
    ///
    /// # Errors
    /// Returns `MemoryError` if an allocation fails.
    #[inline]
    pub fn try_clone(&self) -> Result<CodePointInversionList<'static>, MemoryError> {
        Ok(CodePointInversionList {
            ends: self.ends.try_clone()?,
            size: self.size,
        })
    }
}

/// Queries.
impl<'data> CodePointInversionList<'data> {
    /// Returns the number of boundaries.
    #[inline]
    pub(crate) fn count(&self) -> usize {
        self.ends.len()
    }

    /// Returns the boundary at index `i`, counted from 0.
    #[inline]
    pub(crate) fn end_at(&self, i: usize) -> u32 {
        u32::from(self.ends.as_slice().at(i))
    }

    /// Returns a reference to the packed boundaries.
    #[inline]
    pub(crate) fn packed(&self) -> &ZeroVec<'data, PotentialCodePoint> {
        &self.ends
    }

    /// Returns a view of the boundaries as they are stored, packed in three bytes each. This does
    /// not allocate.
    ///
    /// [`try_from_inversion_list_fallible`](Self::try_from_inversion_list_fallible) turns such a view back into an
    /// equal set.
    ///
    /// ```
    /// use bekstaudi::codepointinvlist::CodePointInversionList;
    /// use bekstaudi::zerovec::ZeroVec;
    ///
    /// let letters = CodePointInversionList::try_from('a'..='z')?;
    /// let ends = letters.as_inversion_list();
    /// // What a file stores of the set, and the set that borrows it.
    /// let bytes = ends.as_bytes();
    /// assert_eq!(bytes, [0x61, 0, 0, 0x7B, 0, 0]);
    /// let same = CodePointInversionList::try_from_inversion_list(ZeroVec::parse_bytes(bytes)?)?;
    /// assert_eq!(same, letters);
    /// # Ok::<(), Box<dyn std::error::Error>>(())
    /// ```
    #[must_use]
    #[inline]
    pub fn as_inversion_list(&self) -> ZeroSlice<'_, PotentialCodePoint> {
        self.ends.as_slice()
    }

    /// Returns a copy of the boundaries as a vector of numbers.
    ///
    /// # Errors
    /// Returns `MemoryError` if an allocation fails.
    #[inline]
    pub fn try_get_inversion_list_vec(&self) -> Result<Vec<u32>, MemoryError> {
        let mut ends = Vec::with_room(self.count())?;
        self.push_ends(&mut ends, 0)?;
        Ok(ends)
    }

    /// Appends the boundaries from index `from` on to `ends`, which is unchanged if an allocation
    /// fails.
    #[inline]
    pub(crate) fn push_ends(&self, ends: &mut Vec<u32>, from: usize) -> Result<(), MemoryError> {
        unpack(&self.ends.as_bytes()[3 * from..], ends)
    }

    /// Returns true if the set contains the code point `c`. Returns false for any number above
    /// 0x10FFFF.
    #[must_use]
    #[inline]
    pub fn contains32(&self, c: u32) -> bool {
        self.place_of(c) % 2 == 1
    }

    /// Returns true if the set contains the character `c`.
    #[must_use]
    #[inline]
    pub fn contains(&self, c: char) -> bool {
        self.contains32(u32::from(c))
    }

    /// Returns true if `range` is not empty and the set contains all code points in it, including
    /// any surrogates between its start and its end.
    #[must_use]
    #[inline]
    pub fn contains_range<R: core::ops::RangeBounds<char>>(&self, range: R) -> bool {
        let (start, end) = range.deconstruct();
        let end = end.min(CODE_POINT_LIMIT);
        start < end && self.reaches(self.place_of(start), end)
    }

    /// Returns true if `other` is a subset of this set. The empty set is a subset of every set.
    ///
    /// If `other` contains more code points than this set, this returns false at once.
    #[inline]
    #[must_use]
    pub fn contains_set(&self, other: &CodePointInversionList<'_>) -> bool {
        if other.size > self.size {
            return false;
        }
        if other.size == 0 {
            return true;
        }
        if other.size == self.size {
            return *self == *other;
        }
        self.holds_some(other)
    }

    /// Returns the index of `c` among the set's code points in ascending order, or `None` if the
    /// set does not contain `c`.
    ///
    /// The index is the number of smaller code points in the set, and is less than
    /// [`size`](Self::size).
    #[must_use]
    #[inline]
    pub fn position(&self, c: char) -> Option<usize> {
        self.position32(u32::from(c))
    }

    /// Returns the index of `c` among the set's code points in ascending order, or `None` if the
    /// set does not contain `c`.
    ///
    /// The index is the number of smaller code points in the set, and is less than
    /// [`size`](Self::size). For any number above 0x10FFFF the result is `None`.
    #[must_use]
    #[inline]
    pub fn position32(&self, c: u32) -> Option<usize> {
        let place = self.place_of(c);
        if place.is_multiple_of(2) {
            return None;
        }
        let start = place - 1;
        let before = sum_of_sizes(&self.ends.as_bytes()[..3 * start]);
        Some(before + (c - self.end_at(start)) as usize)
    }

    /// Returns the number of code points in the set, including surrogates. The number is stored, so
    /// this takes constant time.
    #[must_use]
    #[inline]
    pub fn size(&self) -> usize {
        self.size as usize
    }

    /// Returns true if the set contains no code points.
    #[must_use]
    #[inline]
    pub fn is_empty(&self) -> bool {
        self.ends.is_empty()
    }
}

/// Ranges and characters.
impl<'data> CodePointInversionList<'data> {
    /// Returns the number of ranges in the set. Two ranges never touch.
    #[must_use]
    #[inline]
    pub fn get_range_count(&self) -> usize {
        self.ends.len() / 2
    }

    /// Returns the range at `index`, counted from 0, or `None` if there are not that many ranges.
    /// The range includes its last code point.
    #[must_use]
    #[inline]
    pub fn get_nth_range(&self, index: usize) -> Option<RangeInclusive<u32>> {
        if index >= self.count() / 2 {
            return None;
        }
        Some(RangeInclusive::new(
            self.end_at(2 * index),
            self.end_at(2 * index + 1) - 1,
        ))
    }

    /// Returns an iterator over the ranges of the set, in ascending order: for `[0x41, 0x44, 0x61,
    /// 0x62]` it yields 0x41..=0x43 and 0x61..=0x61.
    #[inline]
    pub fn iter_ranges(&self) -> IterRanges<'_> {
        IterRanges::from_bytes(self.ends.as_bytes())
    }

    /// Returns an iterator over the ranges of code points that are not in the set, in ascending
    /// order: for the empty set it yields 0..=0x10FFFF.
    #[inline]
    pub fn iter_ranges_complemented(&self) -> IterRangesComplemented<'_> {
        let mut ends = self.ends.iter();
        if self.contains32(0) {
            let _ = ends.next();
            let start = start_of_gap(ends.next());
            return IterRangesComplemented::from_gap(start, ends);
        }
        IterRangesComplemented::from_gap(Some(0), ends)
    }

    /// Returns an iterator over the characters in the set, in ascending order. It skips surrogates.
    #[inline]
    pub fn iter_chars(&self) -> IterChars<'_> {
        IterChars::from_ends(self.ends.iter())
    }
}

/// Spans of text.
impl<'data> CodePointInversionList<'data> {
    /// Returns the length in bytes of the longest prefix of `text` whose characters are all in the
    /// set, or all outside it if `held` is false.
    ///
    /// The result is a character boundary, so `&text[set.span(text, true)..]` is the rest of the
    /// text. A character in the same range as the one before it takes no search.
    #[must_use]
    pub fn span(&self, text: &str, held: bool) -> usize {
        let mut stretch = Stretch::none();
        let mut length = 0;
        for c in text.chars() {
            if !stretch.has(c) {
                let Some(found) = self.stretch_at(c, held) else {
                    return length;
                };
                stretch = found;
            }
            length += c.len_utf8();
        }
        length
    }

    /// Returns the byte offset at which the longest suffix starts whose characters are all in the
    /// set, or all outside it if `held` is false.
    ///
    /// The result is a character boundary, so `&text[..set.span_back(text, true)]` is the text
    /// before that suffix.
    #[must_use]
    pub fn span_back(&self, text: &str, held: bool) -> usize {
        let mut stretch = Stretch::none();
        let mut start = text.len();
        for c in text.chars().rev() {
            if !stretch.has(c) {
                let Some(found) = self.stretch_at(c, held) else {
                    return start;
                };
                stretch = found;
            }
            start -= c.len_utf8();
        }
        start
    }
}
