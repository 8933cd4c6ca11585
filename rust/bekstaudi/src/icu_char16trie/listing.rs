//! The entries of a trie through one buffer.

use crate::icu_char16trie::place::Place;
use crate::icu_char16trie::walk::Walk;
use crate::icu_zerovec::{MemoryError, ZeroSlice};
use crate::support::prelude::*;

/// The entries of a trie in unit order, one at a time.
///
/// [`advance`](Self::advance) moves to the next entry, and [`key`](Self::key) and
/// [`value`](Self::value) return it. The text of the key is stored in one buffer, which grows if a
/// key is longer than all before it. A key that ends in a lead surrogate is written to a second
/// buffer. ICU: `UCharsTrie::Iterator`.
///
/// Created by [`Char16Trie::entries`](crate::icu_char16trie::trie::Char16Trie::entries), and by
/// [`Char16TrieCursor::entries`](crate::icu_char16trie::cursor::Char16TrieCursor::entries) for the keys ahead of a
/// cursor.
///
/// One call of `advance` opens at most as many nodes as there are units. A trie never has more of
/// them before an entry. If the units are not a trie, the entries are what their nodes contain, as
/// far as the units go. They end when one call has opened that many nodes without finding an entry.
#[derive(Debug, Clone)]
pub struct Entries<'a> {
    walk: Walk<'a>,
}

impl<'a> Entries<'a> {
    /// Creates the listing of the entries from a position in these units.
    #[inline]
    pub(crate) fn new(units: ZeroSlice<'a, u16>, place: Place) -> Self {
        Entries {
            walk: Walk::new(units, place),
        }
    }

    /// Moves to the next entry and returns true, or returns false if none is left.
    ///
    /// After it has returned false or an `Err`, no entry is left. Allocates only if the key is
    /// longer than all before it, or nested below more branches.
    ///
    /// ```
    /// use bekstaudi::char16trie::Char16TrieBuilder;
    ///
    /// let mut builder = Char16TrieBuilder::new();
    /// builder.add_str("a", 1)?;
    /// builder.add_str("ab", 2)?;
    /// let trie = builder.try_build()?;
    /// let mut entries = trie.entries();
    /// let mut lengths = vec![];
    /// while entries.try_advance()? {
    ///     lengths.push((entries.key().len(), entries.value()));
    /// }
    /// assert_eq!(lengths, [(1, 1), (2, 2)]);
    /// # Ok::<(), Box<dyn std::error::Error>>(())
    /// ```
    ///
    /// # Errors
    /// Returns `MemoryError` if an allocation fails.
    #[inline]
    pub fn try_advance(&mut self) -> Result<bool, MemoryError> {
        self.walk.next_entry()
    }

    /// Returns the text of the current entry's key. Each lone surrogate is U+FFFD.
    ///
    /// The text is empty before the first [`advance`](Self::advance), and after one that reached no
    /// entry.
    #[inline]
    #[must_use]
    pub fn key(&self) -> &str {
        self.walk.text()
    }

    /// Returns the value of the current entry.
    ///
    /// The value is 0 before the first [`advance`](Self::advance), after one that reached no entry,
    /// and if some units of the value are missing.
    #[inline]
    #[must_use]
    pub const fn value(&self) -> i32 {
        self.walk.value
    }
}
