//! Frozen sets of code points and strings.

use crate::icu_frozen_sets::frozen::FrozenCodePointSet;
use crate::icu_text_sets::codepointinvliststringlist::CodePointInversionListAndStringList;
use crate::icu_zerovec::MemoryError;
use crate::support::prelude::*;

/// A set of code points and strings for many look-ups (ICU: a frozen UnicodeSet with strings). It
/// stores the set and a frozen set of its code points.
///
/// ```
/// use bekstaudi::codepointinvlist::FrozenCodePointSetAndStrings;
///
/// let words = FrozenCodePointSetAndStrings::freeze(&["a", "abc"].into_iter().collect());
/// assert!(words.contains_str("abc") && words.contains_str("a"));
/// assert!(!words.contains_str("ab"));
/// ```
#[derive(Debug)]
pub struct FrozenCodePointSetAndStrings {
    set: CodePointInversionListAndStringList<'static>,
    code_points: FrozenCodePointSet,
}

/// Constructors and copies.
impl FrozenCodePointSetAndStrings {
    /// Returns a frozen set with the code points and the strings of `set` (ICU:
    /// `UnicodeSet::freeze`). It has its own copy of both, and `set` is unchanged.
    ///
    /// # Errors
    /// Returns `MemoryError` if an allocation fails.
    #[inline]
    pub fn try_freeze(
        set: &CodePointInversionListAndStringList<'_>,
    ) -> Result<FrozenCodePointSetAndStrings, MemoryError> {
        let code_points = FrozenCodePointSet::try_freeze(set.code_points())?;
        Ok(FrozenCodePointSetAndStrings {
            set: set.try_clone()?,
            code_points,
        })
    }

    /// Returns an equal frozen set. This copies the bits and does not compute them again.
    ///
    /// # Errors
    /// Returns `MemoryError` if an allocation fails.
    #[inline]
    pub fn try_clone(&self) -> Result<FrozenCodePointSetAndStrings, MemoryError> {
        let code_points = self.code_points.try_clone()?;
        Ok(FrozenCodePointSetAndStrings {
            set: self.set.try_clone()?,
            code_points,
        })
    }
}

/// Queries.
impl FrozenCodePointSetAndStrings {
    /// Returns a reference to the set that was frozen.
    #[must_use]
    #[inline]
    pub const fn as_set(&self) -> &CodePointInversionListAndStringList<'static> {
        &self.set
    }

    /// Returns true if the set contains the text: as a code point if it has exactly one character,
    /// and otherwise as a string.
    ///
    /// A text of one character takes no search.
    #[must_use]
    #[inline]
    pub fn contains_str(&self, text: &str) -> bool {
        let mut chars = text.chars();
        match (chars.next(), chars.next()) {
            (Some(c), None) => self.code_points.contains(c),
            _ => self.set.contains_str(text),
        }
    }

    /// Returns true if the set contains the code point `cp`. Returns false for any number above
    /// 0x10FFFF.
    #[inline(always)]
    #[must_use]
    pub fn contains32(&self, cp: u32) -> bool {
        self.code_points.contains32(cp)
    }

    /// Returns true if the set contains the character `ch`.
    #[inline(always)]
    #[must_use]
    pub fn contains(&self, ch: char) -> bool {
        self.code_points.contains(ch)
    }
}

/// Compares the sets, because the set determines the bits.
impl PartialEq for FrozenCodePointSetAndStrings {
    #[inline]
    fn eq(&self, other: &Self) -> bool {
        self.set == other.set
    }
}

impl Eq for FrozenCodePointSetAndStrings {}
