//! The cells of two packed vectors, and the functions of the format that read only these.

use crate::icu_trie_core::cells::Cells;
use crate::icu_trie_core::coherent::is_coherent;
use crate::icu_trie_core::header::CodePointTrieHeader;
use crate::icu_trie_core::range::CodePointMapRange;
use crate::icu_trie_core::value::TrieValue;
use crate::icu_trie_core::walk::walk;
use crate::icu_zerovec::ZeroSlice;
use crate::support::prelude::*;

/// The cells of two packed vectors.
pub(crate) struct PackedCells<'a, T: TrieValue> {
    pub(crate) index: ZeroSlice<'a, u16>,
    pub(crate) values: ZeroSlice<'a, T>,
}

impl<'a, T: TrieValue> Cells<T> for PackedCells<'a, T> {
    #[inline(always)]
    fn index_len(&self) -> usize {
        self.index.len()
    }

    #[inline(always)]
    fn data_len(&self) -> usize {
        self.values.len()
    }

    #[inline(always)]
    fn index_cell(&mut self, i: usize) -> Option<u16> {
        self.index.get(i)
    }

    #[inline(always)]
    fn data_cell(&mut self, i: usize) -> Option<T> {
        self.values.get(i)
    }

    #[inline(always)]
    fn index_at(&mut self, i: usize) -> u16 {
        self.index.at(i)
    }

    #[inline(always)]
    fn data_at(&mut self, i: usize) -> T {
        self.values.at(i)
    }
}

/// `walk` over packed vectors.
#[inline(always)]
fn walk_counted<T: TrieValue>(
    header: &CodePointTrieHeader,
    index: ZeroSlice<'_, u16>,
    values: ZeroSlice<'_, T>,
    c: u32,
) -> Option<CodePointMapRange<T>> {
    let mut cells = PackedCells { index, values };
    walk(header, &mut cells, c)
}

/// `walk` over packed vectors.
#[inline(always)]
pub(crate) fn walk_in<T: TrieValue>(
    header: &CodePointTrieHeader,
    index: ZeroSlice<'_, u16>,
    values: ZeroSlice<'_, T>,
    c: u32,
) -> Option<CodePointMapRange<T>> {
    walk_counted::<T>(header, index, values, c)
}

/// `is_coherent` over packed vectors.
#[inline]
fn is_coherent_counted<T: TrieValue>(
    header: &CodePointTrieHeader,
    index: ZeroSlice<'_, u16>,
    values: ZeroSlice<'_, T>,
) -> bool {
    let mut cells = PackedCells { index, values };
    is_coherent(header, &mut cells)
}

/// `is_coherent` over packed vectors.
#[inline]
pub(crate) fn is_coherent_in<T: TrieValue>(
    header: &CodePointTrieHeader,
    index: ZeroSlice<'_, u16>,
    values: ZeroSlice<'_, T>,
) -> bool {
    is_coherent_counted::<T>(header, index, values)
}
