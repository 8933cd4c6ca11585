//! Finds the first character of a text whose value is accepted.

use crate::icu_trie::cptrie::CodePointTrie;
use crate::icu_trie_core::value::TrieValue;
use crate::icu_trie_text::found::Found;
use crate::icu_trie_text::indices::value_indices_of;
use crate::support::prelude::*;

/// Returns the first character of the text whose value the closure accepts, with its byte offset
/// and its value. Returns `None` if and only if the closure accepts no character's value.
///
/// The offset is a character boundary, so `&text[..found.offset]` is the text before the character.
///
/// Quick checks use this: a text is in a normalization form if no value says that it may not be.
///
/// ```
/// use bekstaudi::codepointtrie::{CodePointTrieBuilder, TrieType, text::find_value};
///
/// let mut builder = CodePointTrieBuilder::new(0u8, 9, TrieType::Fast);
/// builder.set_range_value(0x30..=0x39, 1);
/// let digits = builder.build();
/// let found = find_value(&digits, "ab1", |value| value == 1).expect("a digit");
/// assert_eq!((found.offset, found.character, found.value), (2, '1', 1));
/// ```
#[must_use]
pub fn find_value<T: TrieValue, F: Fn(T) -> bool>(
    trie: &CodePointTrie<'_, T>,
    text: &str,
    accepts: F,
) -> Option<Found<T>> {
    for (offset, character, value) in value_indices_of(trie, text) {
        if accepts(value) {
            return Some(Found {
                offset,
                character,
                value,
            });
        }
    }
    None
}

/// Returns the length in bytes of the longest prefix of the text in which the closure accepts the
/// value of every character.
///
/// The length is a character boundary, so `&text[span_of_values(&trie, text, accepts)..]` is what
/// follows.
///
/// ```
/// use bekstaudi::codepointtrie::{CodePointTrieBuilder, TrieType, text::span_of_values};
///
/// let mut builder = CodePointTrieBuilder::new(0u8, 9, TrieType::Fast);
/// builder.set_range_value(0x61..=0x7A, 2);
/// let letters = builder.build();
/// assert_eq!(span_of_values(&letters, "ab1", |value| value == 2), 2);
/// ```
#[must_use]
#[inline]
pub fn span_of_values<T: TrieValue, F: Fn(T) -> bool>(
    trie: &CodePointTrie<'_, T>,
    text: &str,
    accepts: F,
) -> usize {
    for (offset, _, value) in value_indices_of(trie, text) {
        if !accepts(value) {
            return offset;
        }
    }
    text.len()
}
