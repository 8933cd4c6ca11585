//! The entries of a trie, in unit order.

use crate::icu_char16trie::place::Place;
use crate::icu_char16trie::walk::Walk;
use crate::icu_zerovec::{MemoryError, ZeroSlice};
use crate::support::prelude::*;

/// An iterator over the entries of a trie in unit order: each key as text, with its value. A lone
/// surrogate becomes U+FFFD.
///
/// The iterator ends after an `Err` and after the last entry. One call of `next` opens at most as
/// many nodes as there are units. A trie never has more of them before an entry. If the units are
/// not a trie, the items are what their nodes contain, as far as the units go. The iterator then
/// ends when one call has opened that many nodes without finding an entry.
#[derive(Debug, Clone)]
#[must_use = "iterators are lazy and do nothing unless consumed"]
pub struct Iter2<'a> {
    walk: Walk<'a>,
}

impl<'a> Iter2<'a> {
    /// Creates an iterator over the entries of the trie with these units.
    #[inline]
    pub(crate) fn new(units: ZeroSlice<'a, u16>) -> Self {
        Iter2 {
            walk: Walk::new(units, Place::Node(0)),
        }
    }
}

impl<'a> Iterator for Iter2<'a> {
    type Item = Result<(String, i32), MemoryError>;

    #[inline]
    fn next(&mut self) -> Option<Result<(String, i32), MemoryError>> {
        self.walk.next_item()
    }
}
