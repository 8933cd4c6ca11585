//! The trie, stored in a packed vector of units.

use crate::icu_char16trie::cursor::Char16TrieCursor;
use crate::icu_char16trie::entries::Iter2;
use crate::icu_char16trie::iterator::Char16TrieIterator;
use crate::icu_char16trie::listing::Entries;
use crate::icu_zerovec::{MemoryError, ZeroVec};
use crate::support::prelude::*;

/// A map from lists of 16-bit units, mostly texts in UTF-16, to signed 32-bit numbers, in the
/// format of ICU's `UCharsTrie`.
///
/// ```
/// use bekstaudi::char16trie::Char16Trie;
///
/// // The map of "ab" to 3, as a file stores it.
/// let trie = Char16Trie::new([0x31, 0x61, 0x62, 0x8003].into_iter().collect());
/// let mut cursor = trie.cursor();
/// cursor.step('a');
/// assert_eq!(cursor.value(), None);
/// cursor.step('b');
/// assert_eq!(cursor.value(), Some(3));
/// assert_eq!(trie.longest_match_str("abc"), Some((2, 3)));
/// ```
///
/// Two tries are equal exactly if their units are, whether they own or borrow them.
#[derive(Debug)]
pub struct Char16Trie<'data> {
    /// The units.
    pub data: ZeroVec<'data, u16>,
}

impl<'data> Char16Trie<'data> {
    /// Creates the trie of these units. They are not validated: look-ups return on all units.
    #[inline]
    #[must_use]
    pub const fn new(data: ZeroVec<'data, u16>) -> Self {
        Char16Trie { data }
    }

    /// Returns a cursor at the root, for looking up keys unit by unit.
    ///
    /// ```
    /// use bekstaudi::char16trie::Char16TrieBuilder;
    ///
    /// let mut builder = Char16TrieBuilder::new();
    /// builder.add_str("ab", 3)?;
    /// let trie = builder.try_build()?;
    /// let mut cursor = trie.cursor();
    /// cursor.step('a');
    /// assert_eq!(cursor.value(), None);
    /// cursor.step('b');
    /// assert_eq!(cursor.value(), Some(3));
    /// # Ok::<(), Box<dyn std::error::Error>>(())
    /// ```
    #[inline]
    #[must_use]
    pub fn cursor(&self) -> Char16TrieCursor<'_> {
        Char16TrieCursor::new(self.data.as_slice())
    }

    /// Returns an iterator at the root: a cursor that returns a result for each step.
    ///
    /// ```
    /// use bekstaudi::char16trie::{Char16TrieBuilder, TrieResult};
    ///
    /// let mut builder = Char16TrieBuilder::new();
    /// builder.add_str("ab", 3)?;
    /// let trie = builder.try_build()?;
    /// let mut iterator = trie.iter();
    /// assert_eq!(iterator.next('a'), TrieResult::NoValue);
    /// assert_eq!(iterator.next('b'), TrieResult::FinalValue(3));
    /// # Ok::<(), Box<dyn std::error::Error>>(())
    /// ```
    #[inline]
    #[must_use]
    pub fn iter(&self) -> Char16TrieIterator<'_> {
        Char16TrieIterator::new(self.data.as_slice())
    }

    /// Returns an iterator over the entries, in unit order: each key as text, with its value.
    ///
    /// Allocates nothing before the first item, and then the text of each item, of exactly its
    /// length. That and its release take 25 ns of an item's 55 to 90:
    /// [`entries`](Self::entries) reuses one buffer, and is the fast form. An item is an `Err` if an
    /// allocation fails, and then the iterator ends.
    ///
    /// One item opens at most as many nodes as there are units. A whole run takes time proportional
    /// to the number of entries. Nodes may be shared, so a few units can have very many entries:
    /// [`Char16Trie::count_entries`] returns how many.
    ///
    /// It is not named `iter` because in the Rust crate `iter` returns a look-up, not a listing.
    ///
    /// ```
    /// use bekstaudi::char16trie::Char16TrieBuilder;
    ///
    /// let mut builder = Char16TrieBuilder::new();
    /// builder.add_str("a", 1)?;
    /// builder.add_str("ab", 2)?;
    /// let trie = builder.try_build()?;
    /// let entries = trie.try_iter2().collect::<Result<Vec<_>, _>>()?;
    /// assert_eq!(entries, [("a".into(), 1), ("ab".into(), 2)]);
    /// # Ok::<(), Box<dyn std::error::Error>>(())
    /// ```
    #[inline]
    pub fn try_iter2(&self) -> Iter2<'_> {
        Iter2::new(self.data.as_slice())
    }

    /// Returns the entries, in unit order, with one buffer for the text of their keys.
    ///
    /// Use this to list entries without storing the keys; [`iter2`](Self::iter2) returns each key
    /// as a text of its own. Allocates nothing before the first entry. As with `iter2`, one call
    /// opens at most as many nodes as there are units, and there may be very many entries.
    ///
    /// ```
    /// use bekstaudi::char16trie::Char16TrieBuilder;
    ///
    /// let mut builder = Char16TrieBuilder::new();
    /// builder.add_str("ab", 2)?;
    /// let trie = builder.try_build()?;
    /// let mut entries = trie.entries();
    /// assert!(entries.advance());
    /// assert_eq!((entries.key(), entries.value()), ("ab", 2));
    /// assert!(!entries.advance());
    /// # Ok::<(), Box<dyn std::error::Error>>(())
    /// ```
    #[inline]
    #[must_use]
    pub fn entries(&self) -> Entries<'_> {
        self.cursor().entries()
    }

    /// Returns an equal trie that owns its units.
    ///
    /// # Errors
    /// Returns `MemoryError` if an allocation fails.
    #[inline]
    pub fn try_clone(&self) -> Result<Char16Trie<'static>, MemoryError> {
        Ok(Char16Trie::new(self.data.try_clone()?))
    }
}

impl<'data> PartialEq for Char16Trie<'data> {
    #[inline]
    fn eq(&self, other: &Self) -> bool {
        self.data == other.data
    }
}

impl<'data> Eq for Char16Trie<'data> {}
