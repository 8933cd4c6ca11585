//! The ranges of a trie.

use crate::icu_invlist::codepointinvlist::CodePointInversionList;
use crate::icu_trie::cptrie::CodePointTrie;
use crate::icu_trie::packed_cells::walk_in;
use crate::icu_trie::view::TrieView;
pub use crate::icu_trie_core::range::CodePointMapRange;
use crate::icu_trie_core::value::TrieValue;
use crate::icu_trie_core::walk::is_same;
use crate::icu_zerovec::{CODE_POINT_LIMIT, MemoryError};
use crate::support::prelude::*;

impl<'a, T: TrieValue> TrieView<'a, T> {
    /// Returns the range of code points from `c` on that have the same value as `c`, as
    /// [`CodePointTrie::get_range`] does.
    #[inline(always)]
    #[must_use]
    pub fn get_range(&self, c: u32) -> Option<CodePointMapRange<T>> {
        let (header, index, data) = self.parts();
        walk_in(&header, index, data, c)
    }
}

impl<'trie, T: TrieValue> CodePointTrie<'trie, T> {
    /// Returns the range of code points from `c` on that have the same value as `c`.
    ///
    /// If the trie is coherent, as every built one is, this is the longest run of equal values from
    /// `c` on. Otherwise the header decides: [`is_coherent`](Self::is_coherent) says how.
    ///
    /// Returns `None` if `c` is above 0x10FFFF, or if the trie lacks a cell that is needed.
    #[inline(always)]
    #[must_use]
    pub fn get_range(&self, c: u32) -> Option<CodePointMapRange<T>> {
        self.as_view().get_range(c)
    }

    /// Returns an iterator over the ranges of equal values, in order from 0 on. Each range starts
    /// right after the one before it.
    ///
    /// If the trie is coherent, as every built one is, these are the maximal runs of its values.
    ///
    /// ```
    /// use bekstaudi::codepointtrie::{CodePointTrieBuilder, TrieType};
    ///
    /// let mut builder = CodePointTrieBuilder::new(0u8, 9, TrieType::Small);
    /// builder.set_range_value(0x41..=0x5A, 1);
    /// let trie = builder.build();
    /// let ranges: Vec<_> = trie.iter_ranges().map(|it| (it.range, it.value)).collect();
    /// assert_eq!(ranges, [(0..=0x40, 0), (0x41..=0x5A, 1), (0x5B..=0x10FFFF, 0)]);
    /// ```
    #[inline]
    pub const fn iter_ranges(&self) -> CodePointMapRangeIterator<'_, T> {
        CodePointMapRangeIterator {
            trie: self,
            next: 0,
        }
    }

    /// Returns the boundaries of the ranges with the value, alternating inclusive starts and
    /// exclusive ends. Adjacent ranges with the value are joined.
    fn ends_of_value(&self, value: T) -> Result<Vec<u32>, MemoryError> {
        // If the number of boundaries is odd, the last range had the value.
        let mut ends = Vec::new();
        let mut next = 0;
        for run in self.iter_ranges() {
            let is_inside = ends.len() % 2 == 1;
            if is_same(run.value, value) != is_inside {
                ends.try_push(*run.range.start())?;
            }
            next = *run.range.end() + 1;
        }
        if ends.len() % 2 == 1 {
            ends.try_push(next)?;
        }
        Ok(ends)
    }

    /// Returns the set of code points whose range in [`iter_ranges`](Self::iter_ranges) has the
    /// value.
    ///
    /// If the trie is coherent, as every built one is, these are exactly the code points that have
    /// the value.
    ///
    /// ```
    /// use bekstaudi::codepointtrie::{CodePointTrieBuilder, TrieType};
    ///
    /// let mut builder = CodePointTrieBuilder::new(0u8, 9, TrieType::Small);
    /// builder.set_range_value(0x41..=0x5A, 1);
    /// let letters = builder.build().try_get_set_for_value(1)?;
    /// assert!(letters.contains('Z') && !letters.contains32(0x5B));
    /// # Ok::<(), Box<dyn std::error::Error>>(())
    /// ```
    ///
    /// # Errors
    /// Returns `MemoryError` if an allocation fails.
    #[inline]
    pub fn try_get_set_for_value(
        &self,
        value: T,
    ) -> Result<CodePointInversionList<'static>, MemoryError> {
        let ends = self.ends_of_value(value)?;
        let set = CodePointInversionList::from_valid_slice(&ends)?;
        Ok(set)
    }
}

/// An iterator over the ranges of a trie, from 0 on. See [`CodePointTrie::iter_ranges`].
///
/// It returns what [`get_range`](CodePointTrie::get_range) returns at 0, and then at the code point
/// after each range. Once it returns `None`, it returns `None` forever.
#[derive(Debug, Clone)]
#[must_use = "iterators are lazy and do nothing unless consumed"]
pub struct CodePointMapRangeIterator<'a, T: TrieValue> {
    trie: &'a CodePointTrie<'a, T>,
    next: u32,
}

impl<'a, T: TrieValue> Iterator for CodePointMapRangeIterator<'a, T> {
    type Item = CodePointMapRange<T>;

    #[inline(always)]
    fn next(&mut self) -> Option<CodePointMapRange<T>> {
        let range = self.trie.get_range(self.next);
        self.next = match &range {
            Some(x) => *x.range.end() + 1,
            None => CODE_POINT_LIMIT,
        };
        range
    }

    /// A trie that lacks a cell may have no range. Otherwise each has at least one code point.
    #[inline]
    fn size_hint(&self) -> (usize, Option<usize>) {
        (0, Some(CODE_POINT_LIMIT.saturating_sub(self.next) as usize))
    }
}
