//! The ranges of a trie whose values are mapped.
use crate::icu_trie::cptrie::CodePointTrie;
use crate::icu_trie::iterator_utils::RangeListIteratorCoalescer;
use crate::icu_trie::ranges::CodePointMapRangeIterator;
use crate::icu_trie_core::range::CodePointMapRange;
use crate::icu_trie_core::value::TrieValue;
use crate::support::prelude::*;

impl<'trie, T: TrieValue> CodePointTrie<'trie, T> {
    /// Returns an iterator over the ranges whose values are equal under `map`. It replaces the
    /// value of each range of [`iter_ranges`](Self::iter_ranges) by the result of `map`, and joins
    /// adjacent ranges with equal results.
    ///
    /// The iterator is lazy: it calls `map` once for each range that it reaches. If the result of
    /// `map` depends only on its argument and the trie is coherent, as every built one is, the
    /// ranges are the maximal runs.
    ///
    /// ```
    /// use bekstaudi::codepointtrie::planes::get_planes_trie;
    ///
    /// let planes = get_planes_trie();
    /// let ranges: Vec<_> = planes.iter_ranges_mapped(|x| x != 0).collect();
    /// assert_eq!(ranges.len(), 2);
    /// assert_eq!(ranges[0].range, 0..=0xFFFF);
    /// assert_eq!(ranges[1].range, 0x10000..=0x10FFFF);
    /// ```
    #[inline]
    pub fn iter_ranges_mapped<U: Eq, F: Fn(T) -> U>(
        &self,
        map: F,
    ) -> IterRangesMapped<'_, T, U, F> {
        IterRangesMapped {
            ranges: RangeListIteratorCoalescer::new(MappedRanges {
                ranges: self.iter_ranges(),
                map,
            }),
        }
    }
}

/// An iterator over the ranges of a trie, each with the result of a closure for its value. It does
/// not join ranges of equal results; [`IterRangesMapped`] contains it and joins them.
#[derive(Debug, Clone)]
#[must_use = "iterators are lazy and do nothing unless consumed"]
pub struct MappedRanges<'a, T: TrieValue, F> {
    ranges: CodePointMapRangeIterator<'a, T>,
    map: F,
}

impl<'a, T: TrieValue, U, F: Fn(T) -> U> Iterator for MappedRanges<'a, T, F> {
    type Item = CodePointMapRange<U>;

    #[inline]
    fn next(&mut self) -> Option<CodePointMapRange<U>> {
        let range = self.ranges.next()?;
        Some(CodePointMapRange {
            range: range.range,
            value: (self.map)(range.value),
        })
    }

    #[inline]
    fn size_hint(&self) -> (usize, Option<usize>) {
        self.ranges.size_hint()
    }
}

/// An iterator over the ranges of a trie with mapped values, in which adjacent ranges of equal
/// values are joined. See [`CodePointTrie::iter_ranges_mapped`].
///
/// Once `next` returns `None`, it returns `None` forever.
#[derive(Debug, Clone)]
#[must_use = "iterators are lazy and do nothing unless consumed"]
pub struct IterRangesMapped<'a, T: TrieValue, U, F> {
    ranges: RangeListIteratorCoalescer<MappedRanges<'a, T, F>, U>,
}

impl<'a, T: TrieValue, U: Eq, F: Fn(T) -> U> Iterator for IterRangesMapped<'a, T, U, F> {
    type Item = CodePointMapRange<U>;

    #[inline]
    fn next(&mut self) -> Option<CodePointMapRange<U>> {
        self.ranges.next()
    }

    #[inline]
    fn size_hint(&self) -> (usize, Option<usize>) {
        self.ranges.size_hint()
    }
}
