//! The mutable set of code points.

use crate::icu_invlist::codepointinvlist::cpinvlist::CodePointInversionList;
use crate::icu_invlist::codepointinvlist::range_of::RangeOf;
use crate::icu_invlist::fill;
use crate::icu_invlist::merge::{Difference, Intersection, SymmetricDifference, Union, change};
use crate::icu_zerovec::{CODE_POINT_LIMIT, MemoryError};
use crate::support::prelude::*;

/// A mutable set of code points. [`build`](CodePointInversionListBuilder::build) turns it into a
/// [`CodePointInversionList`].
///
/// Changing a range edits the list of boundaries in place: the builder searches for the two borders
/// of the range and replaces the boundaries between them. Combining with another set merges both
/// lists into a new one.
///
/// If an allocation fails, a method panics. If its name starts with `try_`, it returns
/// `MemoryError` instead and leaves the set unchanged.
///
/// ```
/// use bekstaudi::codepointinvlist::CodePointInversionListBuilder;
///
/// let mut builder = CodePointInversionListBuilder::new();
/// builder.add_range('A'..='Z');
/// builder.remove_char('Q');
/// let set = builder.build();
/// assert!(set.contains('P') && !set.contains('Q'));
/// assert_eq!(set.size(), 25);
/// ```
#[derive(Debug, PartialEq, Eq)]
pub struct CodePointInversionListBuilder {
    ends: Vec<u32>,
}

impl CodePointInversionListBuilder {
    /// Returns a builder that holds the empty set.
    /// This does not allocate.
    #[must_use]
    #[inline]
    pub const fn new() -> Self {
        CodePointInversionListBuilder { ends: Vec::new() }
    }

    /// Returns true if the set contains no code points.
    #[must_use]
    #[inline]
    pub const fn is_empty(&self) -> bool {
        self.ends.is_empty()
    }

    /// Returns the set as an inversion list, with its boundaries packed in three bytes each.
    ///
    /// # Errors
    /// Returns `MemoryError` if an allocation fails. The builder is dropped in any case.
    #[inline]
    pub fn try_build(self) -> Result<CodePointInversionList<'static>, MemoryError> {
        if self.is_empty() {
            return Ok(CodePointInversionList::none());
        }
        CodePointInversionList::from_valid_slice(&self.ends)
    }

    /// Returns a copy of the builder, which holds an equal set.
    ///
    /// # Errors
    /// Returns `MemoryError` if an allocation fails.
    #[inline]
    pub fn try_clone(&self) -> Result<Self, MemoryError> {
        Ok(CodePointInversionListBuilder {
            ends: Vec::from_slice(&self.ends)?,
        })
    }
}

/// Union: methods that add code points.
impl CodePointInversionListBuilder {
    /// Adds the character `c`.
    ///
    /// # Errors
    /// Returns `MemoryError` if an allocation fails. The set is then unchanged.
    #[inline]
    pub fn try_add_char(&mut self, c: char) -> Result<(), MemoryError> {
        let number = u32::from(c);
        fill::add(&mut self.ends, number, number + 1)
    }

    /// Adds the code point `c`. A number above 0x10FFFF is ignored.
    ///
    /// # Errors
    /// Returns `MemoryError` if an allocation fails. The set is then unchanged.
    #[inline]
    pub fn try_add32(&mut self, c: u32) -> Result<(), MemoryError> {
        fill::add(&mut self.ends, c, c.saturating_add(1))
    }

    /// Adds all code points in `range`: `'A'..='Z'` adds 26 letters. Surrogates between the start
    /// and the end are added too.
    ///
    /// `range` may be empty or reversed; it then adds nothing.
    ///
    /// # Errors
    /// Returns `MemoryError` if an allocation fails. The set is then unchanged.
    #[inline]
    pub fn try_add_range<R: core::ops::RangeBounds<char>>(
        &mut self,
        range: R,
    ) -> Result<(), MemoryError> {
        let (from, till) = range.deconstruct();
        fill::add(&mut self.ends, from, till)
    }

    /// Adds all code points in `range`.
    ///
    /// `range` may be empty or reversed; it then adds nothing. If its exclusive end is above
    /// 0x110000, the whole range is ignored: 0x50..=0x110000 adds nothing.
    ///
    /// # Errors
    /// Returns `MemoryError` if an allocation fails. The set is then unchanged.
    #[inline]
    pub fn try_add_range32<R: core::ops::RangeBounds<u32>>(
        &mut self,
        range: R,
    ) -> Result<(), MemoryError> {
        let (start, end) = range.deconstruct();
        if end > CODE_POINT_LIMIT {
            return Ok(());
        }
        fill::add(&mut self.ends, start, end)
    }

    /// Adds all code points in `set`.
    ///
    /// # Errors
    /// Returns `MemoryError` if an allocation fails. The builder is then unchanged.
    #[inline]
    pub fn try_add_set(&mut self, set: &CodePointInversionList<'_>) -> Result<(), MemoryError> {
        if set.is_empty() {
            return Ok(());
        }
        change::<Union>(&mut self.ends, set)
    }
}

/// Difference: methods that remove code points.
impl CodePointInversionListBuilder {
    /// Removes the character `c`.
    ///
    /// # Errors
    /// Returns `MemoryError` if an allocation fails. The set is then unchanged.
    #[inline]
    pub fn try_remove_char(&mut self, c: char) -> Result<(), MemoryError> {
        let number = u32::from(c);
        fill::remove(&mut self.ends, number, number + 1)
    }

    /// Removes the code point `c`. A number above 0x10FFFF is ignored.
    ///
    /// # Errors
    /// Returns `MemoryError` if an allocation fails. The set is then unchanged.
    #[inline]
    pub fn try_remove32(&mut self, c: u32) -> Result<(), MemoryError> {
        fill::remove(&mut self.ends, c, c.saturating_add(1))
    }

    /// Removes all code points in `range`, including surrogates between its start and its end.
    ///
    /// `range` may be empty or reversed; it then removes nothing.
    ///
    /// # Errors
    /// Returns `MemoryError` if an allocation fails. The set is then unchanged. This allocates only
    /// if it splits a range of the set in two.
    #[inline]
    pub fn try_remove_range<R: core::ops::RangeBounds<char>>(
        &mut self,
        range: R,
    ) -> Result<(), MemoryError> {
        let (from, till) = range.deconstruct();
        fill::remove(&mut self.ends, from, till)
    }

    /// Removes all code points in `range`: `0..=u32::MAX` removes all.
    ///
    /// `range` may be empty or reversed; it then removes nothing.
    ///
    /// # Errors
    /// Returns `MemoryError` if an allocation fails. The set is then unchanged.
    #[inline]
    pub fn try_remove_range32<R: core::ops::RangeBounds<u32>>(
        &mut self,
        range: R,
    ) -> Result<(), MemoryError> {
        let (start, end) = range.deconstruct();
        fill::remove(&mut self.ends, start, end)
    }

    /// Removes all code points in `set`.
    ///
    /// # Errors
    /// Returns `MemoryError` if an allocation fails. The builder is then unchanged.
    #[inline]
    pub fn try_remove_set(&mut self, set: &CodePointInversionList<'_>) -> Result<(), MemoryError> {
        if set.is_empty() {
            return Ok(());
        }
        change::<Difference>(&mut self.ends, set)
    }
}

/// Intersection: methods that remove all other code points.
impl CodePointInversionListBuilder {
    /// Removes all code points except the character `c`. This does not allocate.
    #[inline]
    pub fn retain_char(&mut self, c: char) {
        let number = u32::from(c);
        fill::retain(&mut self.ends, number, number + 1);
    }

    /// Removes all code points except `c`. If `c` is above 0x10FFFF, the set becomes empty. This
    /// does not allocate.
    #[inline]
    pub fn retain32(&mut self, c: u32) {
        fill::retain(&mut self.ends, c, c.saturating_add(1));
    }

    /// Removes all code points outside `range`. If `range` is empty or reversed, the set becomes
    /// empty. This does not allocate.
    #[inline]
    pub fn retain_range<R: core::ops::RangeBounds<char>>(&mut self, range: R) {
        let (from, till) = range.deconstruct();
        fill::retain(&mut self.ends, from, till);
    }

    /// Removes all code points outside `range`. If `range` is empty or reversed, the set becomes
    /// empty. A range that ends above 0x110000 retains all code points from its start on. This does
    /// not allocate.
    #[inline]
    pub fn retain_range32<R: core::ops::RangeBounds<u32>>(&mut self, range: R) {
        let (start, end) = range.deconstruct();
        fill::retain(&mut self.ends, start, end);
    }

    /// Removes all code points that are not in `set`.
    ///
    /// # Errors
    /// Returns `MemoryError` if an allocation fails. The builder is then unchanged.
    #[inline]
    pub fn try_retain_set(&mut self, set: &CodePointInversionList<'_>) -> Result<(), MemoryError> {
        change::<Intersection>(&mut self.ends, set)
    }
}

/// Complement and symmetric difference: methods that flip code points. Flipping removes a code
/// point that is in the set and adds one that is not.
impl CodePointInversionListBuilder {
    /// Flips all code points: the set becomes its complement. Doing it twice restores the set.
    ///
    /// # Errors
    /// Returns `MemoryError` if an allocation fails. The set is then unchanged.
    #[inline]
    pub fn try_complement(&mut self) -> Result<(), MemoryError> {
        fill::flip(&mut self.ends, 0, CODE_POINT_LIMIT)
    }

    /// Flips the character `c`: removes it if it is in the set, and adds it otherwise.
    ///
    /// # Errors
    /// Returns `MemoryError` if an allocation fails. The set is then unchanged.
    #[inline]
    pub fn try_complement_char(&mut self, c: char) -> Result<(), MemoryError> {
        let number = u32::from(c);
        fill::flip(&mut self.ends, number, number + 1)
    }

    /// Flips the code point `c`: removes it if it is in the set, and adds it otherwise. A number
    /// above 0x10FFFF is ignored.
    ///
    /// # Errors
    /// Returns `MemoryError` if an allocation fails. The set is then unchanged.
    #[inline]
    pub fn try_complement32(&mut self, c: u32) -> Result<(), MemoryError> {
        fill::flip(&mut self.ends, c, c.saturating_add(1))
    }

    /// Flips all code points in `range`, including surrogates between its start and its end.
    ///
    /// `range` may be empty or reversed; it then changes nothing.
    ///
    /// # Errors
    /// Returns `MemoryError` if an allocation fails. The set is then unchanged.
    #[inline]
    pub fn try_complement_range<R: core::ops::RangeBounds<char>>(
        &mut self,
        range: R,
    ) -> Result<(), MemoryError> {
        let (from, till) = range.deconstruct();
        fill::flip(&mut self.ends, from, till)
    }

    /// Flips all code points in `range`. Numbers above 0x10FFFF are ignored.
    ///
    /// `range` may be empty or reversed; it then changes nothing.
    ///
    /// # Errors
    /// Returns `MemoryError` if an allocation fails. The set is then unchanged.
    #[inline]
    pub fn try_complement_range32<R: core::ops::RangeBounds<u32>>(
        &mut self,
        range: R,
    ) -> Result<(), MemoryError> {
        let (start, end) = range.deconstruct();
        fill::flip(&mut self.ends, start, end)
    }

    /// Flips all code points in `set`, so that the result is the symmetric difference. Doing it
    /// twice restores the set.
    ///
    /// # Errors
    /// Returns `MemoryError` if an allocation fails. The builder is then unchanged.
    #[inline]
    pub fn try_complement_set(
        &mut self,
        set: &CodePointInversionList<'_>,
    ) -> Result<(), MemoryError> {
        if set.is_empty() {
            return Ok(());
        }
        change::<SymmetricDifference>(&mut self.ends, set)
    }
}
