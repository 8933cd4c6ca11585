//! Sets of code points as inversion lists, as in ICU's UnicodeSet.
//!
//! [`CodePointInversionListBuilder`] builds a [`CodePointInversionList`].
//! [`FrozenCodePointSet::freeze`] adds a bit for each code point, for many look-ups, and
//! [`FrozenCodePointSet::spans`] splits a text into spans in the set and not in it. [`serialized`]
//! reads and writes sets in ICU's serialized form.
//!
//! References to sets have the operators `|`, `&`, `-`, `^` and `!`, each of which makes a new set. Many
//! changes of one set take less time in a builder.
//!
//! ```
//! use bekstaudi::codepointinvlist::{CodePointInversionList, FrozenCodePointSet, serialized};
//!
//! let set: CodePointInversionList = ['b', 'a', 'c'].into_iter().collect();
//! assert_eq!(set.get_inversion_list_vec(), [0x61, 0x64]);
//! assert_eq!(set, CodePointInversionList::try_from('a'..='c')?);
//! assert_eq!(set, ('a'..='c').try_into()?);
//! assert!(set.contains32(0x62) && !set.contains('d'));
//! let frozen = FrozenCodePointSet::freeze(&set);
//! assert_eq!(frozen.spans("abxc").count(), 3);
//! let units = serialized::to_serialized(&set)?;
//! assert_eq!(units, [2, 0x61, 0x64]);
//! assert_eq!(serialized::from_serialized(&units)?, (set, 3));
//!
//! let digits = CodePointInversionList::try_from('0'..='9')?;
//! let letters = CodePointInversionList::try_from('a'..='z')?;
//! let word = &digits | &letters;
//! assert!((&word & &digits) == digits && (&word - &digits) == letters && (&word ^ &letters) == digits);
//! assert!((!&word).contains('-') && !(!&word).contains('7'));
//! # Ok::<(), Box<dyn std::error::Error>>(())
//! ```

pub use crate::constant::InvalidStaticSet;
#[cfg(feature = "alloc")]
pub use crate::icu_frozen_sets::frozen::FrozenCodePointSet;
#[cfg(feature = "alloc")]
pub use crate::icu_frozen_sets::spans::{Span, Spans};
#[cfg(feature = "alloc")]
pub use crate::icu_frozen_sets::text_sets::FrozenCodePointSetAndStrings;
#[cfg(feature = "alloc")]
pub use crate::icu_frozen_sets::view::FrozenView;
#[cfg(feature = "json")]
pub use crate::icu_invlist::codepointinvlist::SetJsonError;
pub use crate::icu_invlist::codepointinvlist::{
    CodePointInversionList, InvalidSetError, IterChars, IterRanges,
    IterRangesComplemented, RangeError, RangeOf, RangePoint, SetError, TryRangeError,
    deconstruct_range, is_valid_zv, utils,
};
#[cfg(feature = "alloc")]
pub use crate::icu_invlist::codepointinvlist::CodePointInversionListBuilder;
pub use crate::icu_invlist_binary::serialized;

#[cfg(feature = "alloc")]
use crate::codepointinvliststringlist::CodePointInversionListAndStringList;
#[cfg(feature = "alloc")]
use crate::plain::{plain, plain_calls, plain_clone};
use crate::zerovec::{PotentialCodePoint, ZeroVec};
#[cfg(feature = "alloc")]
use alloc::vec::Vec;
#[cfg(feature = "alloc")]
use core::ops::{
    Range, RangeBounds, RangeFrom, RangeFull, RangeInclusive, RangeTo, RangeToInclusive,
};

#[cfg(feature = "alloc")]
plain_clone! {
    CodePointInversionListBuilder;
    FrozenCodePointSet;
    FrozenCodePointSetAndStrings;
}

#[cfg(feature = "alloc")]
impl CodePointInversionListBuilder {
    plain_calls! {
        /// Adds the character `c`.
        add_char = try_add_char(c: char);
        /// Adds the code point `c`. A number above 0x10FFFF is ignored.
        add32 = try_add32(c: u32);
        /// Adds all code points in `range`: `'A'..='Z'` adds 26 letters. Surrogates between the start
        /// and the end are added too.
        ///
        /// `range` may be empty or reversed; it then adds nothing.
        add_range = try_add_range(range: impl RangeBounds<char>);
        /// Adds all code points in `range`.
        ///
        /// `range` may be empty or reversed; it then adds nothing. If its exclusive end is above
        /// 0x110000, the whole range is ignored: 0x50..=0x110000 adds nothing.
        add_range32 = try_add_range32(range: impl RangeBounds<u32>);
        /// Adds all code points in `set`.
        add_set = try_add_set(set: &CodePointInversionList<'_>);
        /// Removes the character `c`.
        remove_char = try_remove_char(c: char);
        /// Removes the code point `c`. A number above 0x10FFFF is ignored.
        remove32 = try_remove32(c: u32);
        /// Removes all code points in `range`, including surrogates between its start and its end.
        ///
        /// `range` may be empty or reversed; it then removes nothing.
        remove_range = try_remove_range(range: impl RangeBounds<char>);
        /// Removes all code points in `range`: `0..=u32::MAX` removes all.
        ///
        /// `range` may be empty or reversed; it then removes nothing.
        remove_range32 = try_remove_range32(range: impl RangeBounds<u32>);
        /// Removes all code points in `set`.
        remove_set = try_remove_set(set: &CodePointInversionList<'_>);
        /// Removes all code points that are not in `set`.
        retain_set = try_retain_set(set: &CodePointInversionList<'_>);
        /// Flips the character `c`: removes it if it is in the set, and adds it otherwise.
        complement_char = try_complement_char(c: char);
        /// Flips the code point `c`: removes it if it is in the set, and adds it otherwise. A number
        /// above 0x10FFFF is ignored.
        complement32 = try_complement32(c: u32);
        /// Flips all code points in `range`, including surrogates between its start and its end.
        ///
        /// `range` may be empty or reversed; it then changes nothing.
        complement_range = try_complement_range(range: impl RangeBounds<char>);
        /// Flips all code points in `range`. Numbers above 0x10FFFF are ignored.
        ///
        /// `range` may be empty or reversed; it then changes nothing.
        complement_range32 = try_complement_range32(range: impl RangeBounds<u32>);
        /// Flips all code points in `set`, so that the result is the symmetric difference. Doing it
        /// twice restores the set.
        complement_set = try_complement_set(set: &CodePointInversionList<'_>);
    }

    /// Flips all code points: the set becomes its complement. Doing it twice restores the set.
    ///
    /// # Panics
    /// Panics if an allocation fails; [`try_complement`](Self::try_complement) returns an error
    /// then.
    pub fn complement(&mut self) {
        plain(self.try_complement());
    }

    /// Returns the set as an inversion list, with its boundaries packed in three bytes each.
    ///
    /// # Panics
    /// Panics if an allocation fails; [`try_build`](Self::try_build) returns an error then.
    #[must_use]
    pub fn build(self) -> CodePointInversionList<'static> {
        plain(self.try_build())
    }
}

#[cfg(feature = "alloc")]
impl Default for CodePointInversionListBuilder {
    fn default() -> Self {
        CodePointInversionListBuilder::new()
    }
}

impl<'data> CodePointInversionList<'data> {
    /// Returns the set with this list of boundaries, and takes over the list without copying it.
    ///
    /// # Errors
    /// Returns [`InvalidSetError`] if `ends` is not an inversion list. It contains a copy of the
    /// list, or is empty without the feature `alloc`.
    ///
    /// # Panics
    /// Panics if allocating that copy fails;
    /// [`try_from_inversion_list_fallible`](Self::try_from_inversion_list_fallible) returns an error
    /// then.
    pub fn try_from_inversion_list(
        ends: ZeroVec<'data, PotentialCodePoint>,
    ) -> Result<Self, InvalidSetError> {
        without_memory(Self::try_from_inversion_list_fallible(ends))
    }

    /// Returns the set with these boundaries, and copies them.
    ///
    /// # Errors
    /// Returns [`InvalidSetError`] with a copy of the list if `ends` is not an inversion list.
    ///
    /// # Panics
    /// Panics if an allocation fails;
    /// [`try_from_u32_inversion_list_slice_fallible`](Self::try_from_u32_inversion_list_slice_fallible)
    /// returns an error then.
    #[cfg(feature = "alloc")]
    pub fn try_from_u32_inversion_list_slice(ends: &[u32]) -> Result<Self, InvalidSetError> {
        without_memory(Self::try_from_u32_inversion_list_slice_fallible(ends))
    }
}

/// Returns the result with the error of the Rust crate. Panics if an allocation failed.
#[cfg(feature = "alloc")]
fn without_memory<T>(answer: Result<T, SetError>) -> Result<T, InvalidSetError> {
    match answer {
        Err(SetError::Invalid(error)) => Err(error),
        answer => Ok(plain(answer)),
    }
}

/// Returns the result with the error of the Rust crate. Only an invalid list is copied, so without
/// an allocator a failed allocation means that the list is invalid.
#[cfg(not(feature = "alloc"))]
fn without_memory<T>(answer: Result<T, SetError>) -> Result<T, InvalidSetError> {
    answer.map_err(|error| match error {
        SetError::Invalid(error) => error,
        SetError::Memory => InvalidSetError(crate::support::prelude::Vec::new()),
    })
}

#[cfg(feature = "alloc")]
impl CodePointInversionList<'_> {
    /// Returns a copy of the boundaries as a vector of numbers.
    ///
    /// # Panics
    /// Panics if an allocation fails;
    /// [`try_get_inversion_list_vec`](Self::try_get_inversion_list_vec) returns an error then.
    #[must_use]
    pub fn get_inversion_list_vec(&self) -> Vec<u32> {
        plain(self.try_get_inversion_list_vec())
    }

    /// Returns the same set, which then owns its boundaries. If the set already owns them, nothing
    /// is allocated or copied.
    ///
    /// # Panics
    /// Panics if an allocation fails; [`try_into_owned`](Self::try_into_owned) returns an error
    /// then.
    #[must_use]
    pub fn into_owned(self) -> CodePointInversionList<'static> {
        plain(self.try_into_owned())
    }
}

/// Returns the empty set. Does not allocate.
impl Default for CodePointInversionList<'_> {
    fn default() -> Self {
        CodePointInversionList {
            ends: Default::default(),
            size: 0,
        }
    }
}

#[cfg(feature = "alloc")]
macro_rules! from_ranges {
    ($($range:ty)*) => {
        $(
            /// # Panics
            /// Panics if an allocation fails; [`CodePointInversionList::try_from_range`] returns an
            /// error then.
            impl TryFrom<$range> for CodePointInversionList<'_> {
                type Error = RangeError;

                fn try_from(range: $range) -> Result<Self, RangeError> {
                    match CodePointInversionList::try_from_range(range) {
                        Err(TryRangeError::Invalid(error)) => Err(error),
                        answer => Ok(plain(answer)),
                    }
                }
            }
        )*
    };
}

#[cfg(feature = "alloc")]
from_ranges! {
    Range<char> RangeFrom<char> RangeFull RangeInclusive<char> RangeTo<char> RangeToInclusive<char>
}

#[cfg(feature = "alloc")]
impl FrozenCodePointSet {
    /// Returns a frozen set with the code points of `set` (ICU: `UnicodeSet::freeze`). It has its
    /// own copy of the boundaries, and `set` is unchanged.
    ///
    /// # Panics
    /// Panics if an allocation fails; [`try_freeze`](Self::try_freeze) returns an error then.
    #[must_use]
    pub fn freeze(set: &CodePointInversionList<'_>) -> FrozenCodePointSet {
        plain(FrozenCodePointSet::try_freeze(set))
    }
}

#[cfg(feature = "alloc")]
impl FrozenCodePointSetAndStrings {
    /// Returns a frozen set with the code points and the strings of `set` (ICU:
    /// `UnicodeSet::freeze`). It has its own copy of both, and `set` is unchanged.
    ///
    /// # Panics
    /// Panics if an allocation fails; [`try_freeze`](Self::try_freeze) returns an error then.
    #[must_use]
    pub fn freeze(set: &CodePointInversionListAndStringList<'_>) -> FrozenCodePointSetAndStrings {
        plain(FrozenCodePointSetAndStrings::try_freeze(set))
    }
}
