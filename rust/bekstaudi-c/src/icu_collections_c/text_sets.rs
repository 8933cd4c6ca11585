//! Sets of code points and strings (ICU's `UnicodeSet` with strings): the words of a frozen set, and a
//! unit trie whose keys are the strings.
//!
//! A text of exactly one character is a member if the frozen set contains its code point. Any other
//! text is a member if it is a key of the unit trie. The values of the keys are not used, and keys of
//! exactly one character do not count. Any words and any units are accepted, as by
//! [`bks_frozen_contains`](crate::icu_collections_c::frozen::bks_frozen_contains) and
//! [`bks_units_get_utf8`](crate::icu_collections_c::unit_texts::bks_units_get_utf8).

use crate::icu_collections_c::error::Error;
use crate::icu_collections_c::frozen::bks_frozen_contains;
use crate::icu_collections_c::text_steps::starts_ill_formed;
use crate::icu_collections_c::unit_texts::bks_units_get_utf8;
use crate::icu_collections_c::unit_tries::longest_in;
use crate::icu_utf::characters::first_character;
use crate::support::prelude::*;

/// Returns the character of a text that has exactly one.
#[inline(always)]
fn only_character(text: &[u8]) -> Option<char> {
    match first_character(text) {
        Some((c, size)) if size == text.len() => Some(c),
        _ => None,
    }
}

/// Returns whether the set contains the text: as a code point if it has exactly one character, and
/// otherwise as a string. Returns false if the text is not UTF-8.
///
/// ICU: `uset_contains`, `uset_containsString`.
pub fn bks_text_set_contains(table: &[u64], units: &[u8], text: &[u8]) -> bool {
    match only_character(text) {
        Some(c) => bks_frozen_contains(table, u32::from(c)),
        None => bks_units_get_utf8(units, text, &mut 0),
    }
}

/// Returns the size of a match, or 0 if there is none.
#[inline(always)]
fn size_of(found: Option<(usize, i32)>) -> usize {
    match found {
        Some((size, _)) => size,
        None => 0,
    }
}

/// Returns the size in bytes of the longest member that is a prefix of the bytes and is not empty, or
/// 0 if there is none.
#[inline(always)]
pub(crate) fn longest_member(table: &[u64], units: &[u8], bytes: &[u8]) -> usize {
    let Some((c, size)) = first_character(bytes) else {
        return 0;
    };
    let longest = size_of(longest_in(units, bytes));
    if longest > size {
        return longest;
    }
    if bks_frozen_contains(table, u32::from(c)) {
        return size;
    }
    0
}

/// Finds the longest member of the set that is a prefix of a UTF-8 text, and returns how many bytes it
/// takes. Returns 0 if no member is a prefix of the text; the empty string does not count.
///
/// Reads the first character, and no more of the text than some string continues with. An ill-formed
/// sequence ends the text.
///
/// # Errors
/// Returns the number of [`Error::InvalidUtf8`] if the text is not empty and does not start with a
/// character.
pub fn bks_text_set_longest(table: &[u64], units: &[u8], text: &[u8]) -> i64 {
    if starts_ill_formed(text) {
        return Error::InvalidUtf8.number();
    }
    longest_member(table, units, text) as i64
}
