//! The value of each code point of 16-bit units.

use crate::icu_trie::cptrie::CodePointTrie;
use crate::icu_trie_core::value::TrieValue;
use crate::icu_utf::first_utf16::first_code_point;
use crate::support::prelude::*;

/// An iterator over the code points of 16-bit units, each with its value in a trie.
///
/// Created by [`values_of_utf16`].
#[derive(Debug, Clone)]
#[must_use = "iterators are lazy and do nothing unless consumed"]
pub struct ValuesOfUtf16<'a, T: TrieValue> {
    trie: &'a CodePointTrie<'a, T>,
    rest: &'a [u16],
}

/// Returns an iterator over the code points of the units in order, each with its value in the trie.
///
/// The values are those that [`get32`](CodePointTrie::get32) returns. The units may be ill-formed:
/// a surrogate that is not part of a pair is a code point of its own, with the value that the trie
/// has for it. ICU: a loop over `U16_NEXT` and `ucptrie_get`. `UCPTRIE_FAST_U16_NEXT` gives such a
/// surrogate the error value.
///
/// ```
/// use bekstaudi::codepointtrie::{CodePointTrieBuilder, TrieType, text::values_of_utf16};
///
/// let mut builder = CodePointTrieBuilder::new(0u8, 9, TrieType::Fast);
/// builder.set_range_value(0xD800..=0xDFFF, 18);
/// builder.set_value(0x1D400, 1);
/// let categories = builder.build();
/// let values: Vec<_> = values_of_utf16(&categories, &[0xD835, 0xDC00, 0x31, 0xD835]).collect();
/// // The last unit is a lone surrogate, which has the value of its code point.
/// assert_eq!(values, [(0x1D400, 1), (0x31, 0), (0xD835, 18)]);
/// ```
#[inline]
pub const fn values_of_utf16<'a, T: TrieValue>(
    trie: &'a CodePointTrie<'_, T>,
    units: &'a [u16],
) -> ValuesOfUtf16<'a, T> {
    ValuesOfUtf16 { trie, rest: units }
}

impl<'a, T: TrieValue> Iterator for ValuesOfUtf16<'a, T> {
    type Item = (u32, T);

    #[inline(always)]
    fn next(&mut self) -> Option<(u32, T)> {
        let (first, rest) = first_code_point(self.rest)?;
        self.rest = rest;
        Some((first, self.trie.get32(first)))
    }

    /// A code point is one unit or two.
    #[inline]
    fn size_hint(&self) -> (usize, Option<usize>) {
        (self.rest.len().div_ceil(2), Some(self.rest.len()))
    }
}

impl<T: TrieValue> DoubleEndedIterator for ValuesOfUtf16<'_, T> {
    #[inline(always)]
    fn next_back(&mut self) -> Option<(u32, T)> {
        let last = self.rest.len().checked_sub(1)?;
        let start = match self
            .rest
            .get(last.wrapping_sub(1)..)
            .and_then(first_code_point)
        {
            // The last two units are a pair.
            Some((_, [])) => last - 1,
            _ => last,
        };
        let (others, units) = self.rest.split_at(start);
        let (c, _) = first_code_point(units)?;
        self.rest = others;
        Some((c, self.trie.get32(c)))
    }
}
