//! The value of each character of a text.

use crate::icu_trie::cptrie::CodePointTrie;
use crate::icu_trie_core::value::TrieValue;
use crate::icu_trie_text::first::first_value;
use crate::icu_trie_text::lookup::TextLookup;
use crate::support::prelude::*;
use core::str::Chars;

/// An iterator over the characters of a text, each with its value in a trie.
///
/// Created by [`values_of`].
#[derive(Debug, Clone)]
#[must_use = "iterators are lazy and do nothing unless consumed"]
pub struct ValuesOf<'a, T: TrieValue> {
    trie: TextLookup<'a, T>,
    rest: Chars<'a>,
}

/// Returns an iterator over the characters of the text in order, each with its value in the trie.
///
/// The values are those that [`get`](CodePointTrie::get) returns. ICU: a loop over
/// `UCPTRIE_FAST_U8_NEXT` on well-formed text.
///
/// ```
/// use bekstaudi::codepointtrie::{CodePointTrieBuilder, TrieType, text::values_of};
///
/// let mut builder = CodePointTrieBuilder::new(0u8, 9, TrieType::Fast);
/// builder.set_range_value(0x61..=0x7A, 2);
/// let letters = builder.build();
/// let values: Vec<_> = values_of(&letters, "aB").collect();
/// assert_eq!(values, [('a', 2), ('B', 0)]);
/// ```
#[inline]
pub fn values_of<'a, T: TrieValue>(
    trie: &'a CodePointTrie<'_, T>,
    text: &'a str,
) -> ValuesOf<'a, T> {
    ValuesOf {
        trie: TextLookup::new(trie),
        rest: text.chars(),
    }
}

impl<'a, T: TrieValue> Iterator for ValuesOf<'a, T> {
    type Item = (char, T);

    #[inline(always)]
    fn next(&mut self) -> Option<(char, T)> {
        first_value(&self.trie, &mut self.rest)
    }

    #[inline]
    fn size_hint(&self) -> (usize, Option<usize>) {
        self.rest.size_hint()
    }
}

impl<T: TrieValue> DoubleEndedIterator for ValuesOf<'_, T> {
    #[inline(always)]
    fn next_back(&mut self) -> Option<(char, T)> {
        let last = self.rest.next_back()?;
        Some((last, self.trie.get(last)))
    }
}
