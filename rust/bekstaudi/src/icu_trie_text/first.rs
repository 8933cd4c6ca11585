//! The first of the characters that are left of a text, with its value.

use crate::icu_trie_core::value::TrieValue;
use crate::icu_trie_text::lookup::TextLookup;
use crate::support::prelude::*;
use core::str::Chars;

/// Returns the first of the characters with its value, and removes it from them. `None` if and only
/// if none are left.
#[inline(always)]
pub(crate) fn first_value<T: TrieValue>(
    trie: &TextLookup<'_, T>,
    text: &mut Chars<'_>,
) -> Option<(char, T)> {
    let first = text.next()?;
    match trie.in_place(u32::from(first)) {
        Some(value) => Some((first, value)),
        None => Some((first, trie.get(first))),
    }
}
