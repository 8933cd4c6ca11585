//! The ranges of a trie that have a certain value.
use crate::icu_trie::cptrie::CodePointTrie;
use crate::icu_trie::ranges::CodePointMapRangeIterator;
use crate::icu_trie_core::value::TrieValue;
use crate::support::prelude::*;
use core::ops::RangeInclusive;

impl<'trie, T: TrieValue> CodePointTrie<'trie, T> {
    /// Returns an iterator over the ranges that have the value: those ranges of
    /// [`iter_ranges`](Self::iter_ranges), in order, whose value equals it.
    ///
    /// If the trie is coherent, as every built one is, these are the maximal runs of the value. If
    /// no code point has the value, there are none.
    #[inline]
    pub const fn iter_ranges_for_value(&self, value: T) -> IterRangesForValue<'_, T> {
        IterRangesForValue {
            ranges: self.iter_ranges(),
            value,
        }
    }
}

/// An iterator over the ranges of a trie that have a certain value. See
/// [`CodePointTrie::iter_ranges_for_value`].
///
/// Once `next` returns `None`, it returns `None` forever.
#[derive(Debug, Clone)]
#[must_use = "iterators are lazy and do nothing unless consumed"]
pub struct IterRangesForValue<'a, T: TrieValue> {
    ranges: CodePointMapRangeIterator<'a, T>,
    value: T,
}

impl<'a, T: TrieValue> Iterator for IterRangesForValue<'a, T> {
    type Item = RangeInclusive<u32>;

    #[inline]
    fn next(&mut self) -> Option<RangeInclusive<u32>> {
        while let Some(range) = self.ranges.next() {
            if range.value == self.value {
                return Some(range.range);
            }
        }
        None
    }

    #[inline]
    fn size_hint(&self) -> (usize, Option<usize>) {
        (0, self.ranges.size_hint().1)
    }
}
