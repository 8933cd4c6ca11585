//! Two tries are equal if their headers, indices and data are, whether they borrow or own them.

use crate::icu_trie::cptrie::CodePointTrie;
use crate::icu_trie_core::header::CodePointTrieHeader;
use crate::icu_trie_core::value::TrieValue;
use crate::support::prelude::*;

impl<'trie, T: TrieValue> PartialEq for CodePointTrie<'trie, T> {
    #[inline]
    fn eq(&self, other: &Self) -> bool {
        self.header == other.header && self.index == other.index && self.data == other.data
    }
}

impl<'trie, T: TrieValue> Eq for CodePointTrie<'trie, T> {}
