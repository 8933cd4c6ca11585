//! The spans of a text over a set of code points and strings.

use crate::icu_collections_c::error::Error;
use crate::icu_collections_c::text_sets::longest_member;
use crate::icu_collections_c::text_steps::starts_ill_formed;
use crate::icu_utf::characters::first_character;
use crate::support::prelude::*;

/// Returns the size of the character at the start of the bytes, or 0 if they start with none.
#[inline(always)]
fn first_size(bytes: &[u8]) -> usize {
    match first_character(bytes) {
        Some((_, size)) => size,
        None => 0,
    }
}

/// Returns how many bytes the next step of a span takes, or 0 at its end.
#[inline]
fn step_size(table: &[u64], units: &[u8], bytes: &[u8], held: bool) -> usize {
    let longest = longest_member(table, units, bytes);
    if held {
        return longest;
    }
    if longest > 0 {
        return 0;
    }
    first_size(bytes)
}

/// Returns how many bytes the step from offset `end` on takes, or 0 at the end of the span.
#[inline(always)]
fn step_at(table: &[u64], units: &[u8], bytes: &[u8], end: usize, held: bool) -> usize {
    step_size(table, units, &bytes[end..], held)
}

/// Returns how many bytes a span at the start of the bytes has.
#[inline]
fn span_size(table: &[u64], units: &[u8], bytes: &[u8], held: bool) -> usize {
    let mut end = 0;
    let mut size = step_at(table, units, bytes, end, held);
    while size > 0 {
        end += size;
        size = step_at(table, units, bytes, end, held);
    }
    end
}

/// Returns how many bytes the span at the start of a UTF-8 text has. If `held` is true, the span goes
/// on by the longest member at each position, until there is none. If `held` is false, it goes on by
/// one character at each position, until a member starts there. The empty string does not count.
///
/// A longer sequence of members may exist: with the members "a", "ab" and "bc", the span of "abc" is
/// "ab". An ill-formed sequence ends a span.
///
/// ICU: `uset_spanUTF8` with `USET_SPAN_SIMPLE` and `USET_SPAN_NOT_CONTAINED`, which takes an
/// ill-formed sequence for U+FFFD instead.
///
/// # Errors
/// Returns the number of [`Error::InvalidUtf8`] if the text is not empty and does not start with a
/// character.
pub fn bks_text_set_span(table: &[u64], units: &[u8], text: &[u8], held: bool) -> i64 {
    if starts_ill_formed(text) {
        return Error::InvalidUtf8.number();
    }
    span_size(table, units, text, held) as i64
}
