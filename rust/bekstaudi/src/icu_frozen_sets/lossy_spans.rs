//! Spans of bytes whose ill-formed sequences count as U+FFFD.

use crate::icu_frozen_sets::frozen::FrozenCodePointSet;
use crate::icu_frozen_sets::longest_span::{frozen_span, span_back};
use crate::icu_frozen_sets::span_condition::FrozenKind;
use crate::icu_frozen_sets::view::{FrozenView, contains};
use crate::icu_utf::characters::{first_character, last_character};
use crate::support::prelude::*;

/// What an ill-formed sequence counts as.
const REPLACEMENT_CHARACTER: u32 = 0xFFFD;

/// Returns the first offset from `start` on at which a character starts. If there is none, returns
/// the length.
#[inline]
fn skip_ill_formed(bytes: &[u8], start: usize) -> usize {
    let mut end = start;
    while end < bytes.len() {
        if first_character(&bytes[end..]).is_some() {
            return end;
        }
        end += 1;
    }
    end
}

/// Returns the last offset up to `end` at which a character ends. If there is none, returns 0.
#[inline]
fn skip_ill_formed_back(bytes: &[u8], end: usize) -> usize {
    let mut start = end;
    while start > 0 {
        if last_character(&bytes[..start]).is_some() {
            return start;
        }
        start -= 1;
    }
    0
}

/// Returns the length of the longest prefix whose characters are all in the frozen set, or all
/// outside it. Ill-formed bytes count as U+FFFD.
fn lossy_span(table: &[u64], held: bool, bytes: &[u8]) -> usize {
    let mut passed = frozen_span(table, held, bytes);
    if contains(table, REPLACEMENT_CHARACTER) != held {
        return passed;
    }
    while passed < bytes.len() {
        let next = skip_ill_formed(bytes, passed);
        if next == passed {
            return passed;
        }
        passed = next + frozen_span(table, held, &bytes[next..]);
    }
    passed
}

/// Returns the offset of the longest suffix whose characters are all in the frozen set, or all
/// outside it. Ill-formed bytes count as U+FFFD.
fn lossy_span_back(table: &[u64], held: bool, bytes: &[u8]) -> usize {
    let mut start = span_back(&mut FrozenKind::new(table, held), bytes);
    if contains(table, REPLACEMENT_CHARACTER) != held {
        return start;
    }
    while start > 0 {
        let next = skip_ill_formed_back(bytes, start);
        if next == start {
            return start;
        }
        start = span_back(&mut FrozenKind::new(table, held), &bytes[..next]);
    }
    0
}

/// Spans of bytes whose ill-formed sequences count as U+FFFD.
impl<'a> FrozenView<'a> {
    /// Returns the length in bytes of the longest prefix of `bytes` whose characters are all in the
    /// set, or all outside it if `held` is false (ICU: `UnicodeSet::spanUTF8`).
    ///
    /// `bytes` may be ill-formed UTF-8. An ill-formed sequence counts as U+FFFD, so it ends the span
    /// only if `contains('\u{FFFD}') != held`;
    /// [`span_utf8`](FrozenView::span_utf8) always ends there.
    #[inline]
    #[must_use]
    pub fn span_utf8_lossy(self, bytes: &[u8], held: bool) -> usize {
        lossy_span(self.words(), held, bytes)
    }

    /// Returns the byte offset at which the longest suffix of `bytes` starts whose characters are
    /// all in the set, or all outside it if `held` is false (ICU: `UnicodeSet::spanBackUTF8`).
    ///
    /// `bytes` may be ill-formed UTF-8. An ill-formed sequence counts as U+FFFD, so it ends the span
    /// only if `contains('\u{FFFD}') != held`;
    /// [`span_back_utf8`](FrozenView::span_back_utf8) always ends there.
    #[inline]
    #[must_use]
    pub fn span_back_utf8_lossy(self, bytes: &[u8], held: bool) -> usize {
        lossy_span_back(self.words(), held, bytes)
    }
}

/// Spans of bytes whose ill-formed sequences count as U+FFFD.
impl FrozenCodePointSet {
    /// Returns the length in bytes of the longest prefix of `bytes` whose characters are all in the
    /// set, or all outside it if `held` is false (ICU: `UnicodeSet::spanUTF8`).
    ///
    /// `bytes` may be ill-formed UTF-8. An ill-formed sequence counts as U+FFFD, so it ends the span
    /// only if `contains('\u{FFFD}') != held`;
    /// [`span_utf8`](FrozenCodePointSet::span_utf8) always ends there.
    ///
    /// ```
    /// use bekstaudi::codepointinvlist::FrozenCodePointSet;
    ///
    /// let letters = FrozenCodePointSet::freeze(&('a'..='z').collect());
    /// assert_eq!(letters.span_utf8_lossy(b"ab\xFFc", true), 2);
    /// assert_eq!(letters.span_utf8_lossy(b"\xFF1a", false), 2);
    /// ```
    #[inline]
    #[must_use]
    pub fn span_utf8_lossy(&self, bytes: &[u8], held: bool) -> usize {
        self.as_view().span_utf8_lossy(bytes, held)
    }

    /// Returns the byte offset at which the longest suffix of `bytes` starts whose characters are
    /// all in the set, or all outside it if `held` is false (ICU: `UnicodeSet::spanBackUTF8`).
    ///
    /// `bytes` may be ill-formed UTF-8. An ill-formed sequence counts as U+FFFD, so it ends the span
    /// only if `contains('\u{FFFD}') != held`;
    /// [`span_back_utf8`](FrozenCodePointSet::span_back_utf8) always ends there.
    ///
    /// ```
    /// use bekstaudi::codepointinvlist::FrozenCodePointSet;
    ///
    /// let letters = FrozenCodePointSet::freeze(&('a'..='z').collect());
    /// assert_eq!(letters.span_back_utf8_lossy(b"a1\xFF", false), 1);
    /// ```
    #[inline]
    #[must_use]
    pub fn span_back_utf8_lossy(&self, bytes: &[u8], held: bool) -> usize {
        self.as_view().span_back_utf8_lossy(bytes, held)
    }
}
