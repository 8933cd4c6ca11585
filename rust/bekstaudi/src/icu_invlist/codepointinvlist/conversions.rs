//! Sets made from ranges.

use crate::icu_invlist::codepointinvlist::builder::CodePointInversionListBuilder;
use crate::icu_invlist::codepointinvlist::cpinvlist::CodePointInversionList;
use crate::icu_invlist::codepointinvlist::error::{RangeError, TryRangeError};
use crate::icu_invlist::codepointinvlist::range_of::RangeOf;
use crate::icu_zerovec::MemoryError;
use crate::support::prelude::*;
use core::ops::RangeInclusive;

impl<'data> CodePointInversionList<'data> {
    /// Returns the set of all code points in a range of characters: `'A'..='Z'` gives `[0x41,
    /// 0x5B]`. Surrogates between the start and the end are included.
    ///
    /// # Errors
    /// - `TryRangeError::Invalid` if and only if the range is empty or reversed. The error contains
    ///   its start and its exclusive end: `'B'..'A'` gives `RangeError(0x42, 0x41)`.
    /// - `TryRangeError::Memory` if an allocation fails.
    #[inline]
    pub fn try_from_range<R: core::ops::RangeBounds<char>>(
        range: R,
    ) -> Result<CodePointInversionList<'static>, TryRangeError> {
        let (start, end) = range.deconstruct();
        if start >= end {
            return Err(TryRangeError::Invalid(RangeError(start, end)));
        }
        Ok(CodePointInversionList::from_valid_slice(&[start, end])?)
    }

    /// Returns the union of all ranges that `iter` yields.
    ///
    /// A range whose last number is above 0x10FFFF is ignored as a whole, as in
    /// [`add_range32`](CodePointInversionListBuilder::add_range32). The iterator must be finite.
    ///
    /// # Errors
    /// Returns `MemoryError` if an allocation fails. The iterator is then dropped with its
    /// remaining items.
    #[inline]
    pub fn try_from_iter<I: Iterator<Item = RangeInclusive<u32>>>(
        iter: I,
    ) -> Result<CodePointInversionList<'static>, MemoryError> {
        let mut builder = CodePointInversionListBuilder::new();
        for range in iter {
            builder.try_add_range32(range)?;
        }
        builder.try_build()
    }
}
