//! The value of each character of a text, with the character's byte offset.

use crate::icu_trie::cptrie::CodePointTrie;
use crate::icu_trie_core::value::TrieValue;
use crate::icu_trie_text::first::first_value;
use crate::icu_trie_text::lookup::TextLookup;
use crate::support::prelude::*;
use core::str::Chars;

/// An iterator over the characters of a text, each with its byte offset and its value in a trie.
///
/// Created by [`value_indices_of`].
#[derive(Debug, Clone)]
#[must_use = "iterators are lazy and do nothing unless consumed"]
pub struct ValueIndicesOf<'a, T: TrieValue> {
    trie: TextLookup<'a, T>,
    rest: Chars<'a>,
    /// The length of the whole text in bytes.
    end: usize,
}

/// Returns an iterator over the characters of the text, each with its byte offset and its value in
/// the trie.
///
/// The characters and values are those of [`values_of`](crate::icu_trie_text::values::values_of), and the offsets
/// are those of [`char_indices`](str::char_indices).
///
/// ```
/// use bekstaudi::codepointtrie::{CodePointTrieBuilder, TrieType, text::value_indices_of};
///
/// let mut builder = CodePointTrieBuilder::new(0u8, 9, TrieType::Fast);
/// builder.set_value(0xE9, 2);
/// builder.set_range_value(0x41..=0x5A, 1);
/// let categories = builder.build();
/// let values: Vec<_> = value_indices_of(&categories, "\u{E9}B").collect();
/// assert_eq!(values, [(0, '\u{E9}', 2), (2, 'B', 1)]);
/// ```
#[inline]
pub fn value_indices_of<'a, T: TrieValue>(
    trie: &'a CodePointTrie<'_, T>,
    text: &'a str,
) -> ValueIndicesOf<'a, T> {
    ValueIndicesOf {
        trie: TextLookup::new(trie),
        rest: text.chars(),
        end: text.len(),
    }
}

impl<'a, T: TrieValue> Iterator for ValueIndicesOf<'a, T> {
    type Item = (usize, char, T);

    #[inline(always)]
    fn next(&mut self) -> Option<(usize, char, T)> {
        let offset = self.end - self.rest.as_str().len();
        let (c, value) = first_value(&self.trie, &mut self.rest)?;
        Some((offset, c, value))
    }

    #[inline]
    fn size_hint(&self) -> (usize, Option<usize>) {
        self.rest.size_hint()
    }
}

impl<T: TrieValue> DoubleEndedIterator for ValueIndicesOf<'_, T> {
    #[inline(always)]
    fn next_back(&mut self) -> Option<(usize, char, T)> {
        let last = self.rest.next_back()?;
        self.end -= last.len_utf8();
        Some((self.end, last, self.trie.get(last)))
    }
}
