//! The packed bytes of a code point's cell.

use crate::icu_trie::cptrie::CodePointTrie;
use crate::icu_trie_core::value::TrieValue;
use crate::icu_zerovec::ZeroVec;
use crate::support::prelude::*;

/// Returns the packed bytes of the value at index `i`, or `None` if `i` is past the end.
#[inline]
fn bytes_at<'a, T: TrieValue>(values: &'a ZeroVec<'_, T>, i: usize) -> Option<&'a [u8]> {
    if i >= values.len() {
        return None;
    }
    let start = i * T::WIDTH;
    Some(&values.as_bytes()[start..start + T::WIDTH])
}

impl<'trie, T: TrieValue> CodePointTrie<'trie, T> {
    /// Returns a reference to the packed bytes of the cell of the code point `c`, `T::WIDTH` bytes
    /// long.
    ///
    /// It is for values that are read in place. If `c` is above 0x10FFFF, or if a cell of the index
    /// is missing, it returns the bytes of the last cell, which is the error value. It returns
    /// `None` exactly if the index leads outside the data.
    ///
    /// If each value of the type has one encoding, as in all types of this crate, these are the
    /// bytes that the value packs to.
    #[must_use]
    #[inline]
    pub fn get32_ule(&self, c: u32) -> Option<&[u8]> {
        bytes_at(&self.data, self.as_view().place(c))
    }
}
