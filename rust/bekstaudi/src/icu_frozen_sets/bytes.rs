//! Spans of bytes that may not be valid UTF-8, and of 16-bit units.

use crate::icu_frozen_sets::frozen::FrozenCodePointSet;
use crate::support::prelude::*;

/// Spans of bytes and units.
impl FrozenCodePointSet {
    /// Returns the length in bytes of the longest prefix of `bytes` whose characters are all in the
    /// set, or all outside it if `held` is false. `bytes` may be ill-formed UTF-8.
    ///
    /// An ill-formed sequence ends the span for both values of `held`; ICU's `UnicodeSet::spanUTF8`
    /// treats it as U+FFFD instead. So the result is that of [`span`](FrozenCodePointSet::span) for
    /// the text before the first ill-formed sequence, and the prefix is valid UTF-8. Reads at most
    /// the nine bytes after the span.
    ///
    /// ```
    /// use bekstaudi::codepointinvlist::{CodePointInversionList, FrozenCodePointSet};
    ///
    /// let letters = FrozenCodePointSet::freeze(&('a'..='z').collect());
    /// assert_eq!(letters.span_utf8(b"ab\xFFc", true), 2);
    /// assert_eq!(letters.span_utf8(b"\xFFab", false), 0);
    /// ```
    #[inline]
    #[must_use]
    pub fn span_utf8(&self, bytes: &[u8], held: bool) -> usize {
        self.as_view().span_utf8(bytes, held)
    }

    /// Returns the byte offset at which the longest suffix of `bytes` starts whose characters are
    /// all in the set, or all outside it if `held` is false. `bytes` may be ill-formed UTF-8.
    ///
    /// An ill-formed sequence ends the span for both values of `held`; ICU's
    /// `UnicodeSet::spanBackUTF8` treats it as U+FFFD instead. Reads at most the four bytes before
    /// the span.
    ///
    /// ```
    /// use bekstaudi::codepointinvlist::FrozenCodePointSet;
    ///
    /// let letters = FrozenCodePointSet::freeze(&('a'..='z').collect());
    /// assert_eq!(letters.span_back_utf8(b"a\xFFbc", true), 2);
    /// ```
    #[inline]
    #[must_use]
    pub fn span_back_utf8(&self, bytes: &[u8], held: bool) -> usize {
        self.as_view().span_back_utf8(bytes, held)
    }

    /// Returns the number of units of the longest prefix of 16-bit units whose code points are all
    /// in the set, or all outside it if `held` is false (ICU: `UnicodeSet::span`).
    ///
    /// A high surrogate and the low surrogate after it are one code point. Each other unit is a code
    /// point of its own, even an unpaired surrogate.
    #[inline]
    #[must_use]
    pub fn span_utf16(&self, units: &[u16], held: bool) -> usize {
        self.as_view().span_utf16(units, held)
    }
}
