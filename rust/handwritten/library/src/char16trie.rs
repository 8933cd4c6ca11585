//! Maps from keys of 16-bit units to numbers that are read in place (ICU's unit tries).
//!
//! [`Char16TrieBuilder`] builds a trie. [`Char16Trie::cursor`] and [`Char16Trie::iter`] look keys
//! up unit by unit. [`Char16Trie::longest_match`] and [`Char16Trie::matches`] find the keys that
//! are prefixes of a text. [`Char16Trie::iter2`] and [`Char16Trie::entries`] list the entries.
//!
//! ```
//! use bekstaudi::char16trie::{Char16TrieBuilder, Char16TrieCursor};
//! use std::fmt::Write;
//!
//! let mut builder = Char16TrieBuilder::new();
//! builder.add_str("hello", 7)?;
//! builder.add(&[0x68, 0x65], 2)?;
//! assert_eq!(builder.len(), 2);
//! let trie = builder.try_build()?;
//! let mut cursor = trie.cursor();
//! write!(cursor, "hello")?;
//! assert_eq!(cursor.value(), Some(7));
//! let again = Char16TrieCursor::resume(trie.data.as_slice(), cursor.place());
//! assert_eq!(again.value(), Some(7));
//! assert_eq!(trie.longest_match_str("help"), Some((2, 2)));
//! let text: Vec<u16> = "hello!".encode_utf16().collect();
//! assert_eq!(trie.longest_match(&text), Some((5, 7)));
//! assert_eq!(trie.matches(&text).collect::<Vec<_>>(), [(2, 2), (5, 7)]);
//! assert_eq!(trie.count_entries(), Some(2));
//! let mut entries = trie.entries();
//! assert!(entries.advance() && entries.key() == "he" && entries.value() == 2);
//! # Ok::<(), Box<dyn std::error::Error>>(())
//! ```

#[doc(hidden)]
pub use crate::constant_units::is_unit_trie;
#[cfg(feature = "json")]
pub use crate::icu_char16trie::char16trie::Char16JsonError;
pub use crate::icu_char16trie::char16trie::{
    Char16Trie, Char16TrieCursor, Char16TrieIterator, CursorPlace, Entries, Iter2, Matches,
    TrieResult,
};
#[cfg(feature = "alloc")]
pub use crate::icu_char16trie_builder::builder::Char16TrieBuilder;
#[cfg(feature = "alloc")]
pub use crate::icu_char16trie_builder::error::{AddError, BuildError, SortedError};

#[cfg(feature = "alloc")]
use crate::plain::plain;
#[cfg(feature = "alloc")]
use crate::zerovec::MemoryError;
#[cfg(feature = "alloc")]
use alloc::string::String;
#[cfg(feature = "alloc")]
use alloc::vec::Vec;
#[cfg(feature = "alloc")]
use core::iter::FusedIterator;

#[cfg(feature = "alloc")]
impl Char16Trie<'_> {
    /// Returns the same trie, which then owns its units. If it already owns them, nothing is
    /// allocated or copied.
    ///
    /// # Errors
    /// Returns [`MemoryError`] if an allocation fails. The trie is then dropped.
    pub fn try_into_owned(self) -> Result<Char16Trie<'static>, MemoryError> {
        Ok(Char16Trie::new(self.data.try_into_owned()?))
    }

    /// Returns the same trie, which then owns its units. If it already owns them, nothing is
    /// allocated or copied.
    ///
    /// # Panics
    /// Panics if an allocation fails; [`try_into_owned`](Self::try_into_owned) returns an error
    /// then.
    #[must_use]
    pub fn into_owned(self) -> Char16Trie<'static> {
        plain(self.try_into_owned())
    }

    /// Returns an iterator over the entries, in unit order: each key as text, with its value.
    /// Unpaired surrogates in a key become U+FFFD.
    ///
    /// A whole run takes time proportional to the number of entries. Nodes may be shared, so a few
    /// units can have very many entries: [`count_entries`](Self::count_entries) returns how many.
    ///
    /// ```
    /// use bekstaudi::char16trie::Char16TrieBuilder;
    ///
    /// let mut builder = Char16TrieBuilder::new();
    /// builder.add_str("ab", 2)?;
    /// builder.add_str("a", 1)?;
    /// let entries: Vec<_> = builder.try_build()?.iter2().collect();
    /// assert_eq!(entries, [("a".into(), 1), ("ab".into(), 2)]);
    /// # Ok::<(), Box<dyn std::error::Error>>(())
    /// ```
    ///
    /// # Panics
    /// The iterator panics if an allocation fails; that of [`try_iter2`](Self::try_iter2) returns an
    /// error then.
    pub fn iter2(&self) -> impl FusedIterator<Item = (String, i32)> + Clone + '_ {
        self.try_iter2().map(plain)
    }

    /// Returns true if the units are the trie of some map. Then a listing of them, even if they are
    /// untrusted, gives exactly the entries of that map.
    ///
    /// [`Char16Trie::new`] does not check this, and the Rust crate and ICU have no such check.
    /// [`Char16Trie::count_entries`] returns the number of entries, and so how long a listing
    /// takes.
    ///
    /// The units are a trie if there is a valid node at each index that the root leads to. The
    /// lead, the value and the linear match or branch of a node must be complete. A branch must
    /// have at least two entries, and its units must strictly ascend, also relative to its split
    /// units. An empty list of units is the trie of the empty map. Units that no node leads to are
    /// ignored. Two nodes may lead to the same node, as in tries from ICU's builder.
    ///
    /// Takes time linear in the number of units if no two branches share a part. In untrusted units
    /// they may, and a branch has up to 65,536 entries: then it takes up to 65,536 steps for each
    /// unit, of about 5 ns each. The slowest 848 kB that we know take 2 s. Allocates one byte for
    /// each unit.
    ///
    /// ```
    /// use bekstaudi::char16trie::Char16Trie;
    ///
    /// // The map of "ab" to 3.
    /// let trie = Char16Trie::new([0x31, 0x61, 0x62, 0x8003].into_iter().collect());
    /// assert!(trie.is_trie());
    /// // No node after the linear match.
    /// let trie = Char16Trie::new([0x31, 0x61, 0x62].into_iter().collect());
    /// assert!(!trie.is_trie());
    /// // The units of the branch descend.
    /// let trie = Char16Trie::new([1, 0x62, 0x8001, 0x61, 0x8002].into_iter().collect());
    /// assert!(!trie.is_trie());
    /// ```
    ///
    /// # Panics
    /// Panics if an allocation fails; [`try_is_trie`](Self::try_is_trie) returns an error then.
    #[must_use]
    pub fn is_trie(&self) -> bool {
        plain(self.try_is_trie())
    }

    /// Returns the number of entries of the trie, capped at `u64::MAX`, or `None` if the units are
    /// not a trie, which is when [`Char16Trie::is_trie`] returns false.
    ///
    /// Takes time linear in the number of units, however many entries there are, if no two branches
    /// share a part. In untrusted units they may, and a branch has up to 65,536 entries: then it
    /// takes up to 65,536 steps for each unit, of 10 to 15 ns each. Allocates nine bytes for each
    /// unit.
    ///
    /// ```
    /// use bekstaudi::char16trie::Char16Trie;
    ///
    /// // The map of "a" to 1 and "ab" to 2.
    /// let trie = Char16Trie::new([0x30, 0x61, 0xB0, 0x62, 0x8002].into_iter().collect());
    /// assert_eq!(trie.count_entries(), Some(2));
    /// // Twenty branches, each of two units that both lead to the next one.
    /// let mut units = [1, 0x61, 1, 0x62].repeat(20);
    /// units.push(0x8001);
    /// let trie = Char16Trie::new(units.into_iter().collect());
    /// assert_eq!(trie.count_entries(), Some(1 << 20));
    /// ```
    ///
    /// # Panics
    /// Panics if an allocation fails; [`try_count_entries`](Self::try_count_entries) returns an
    /// error then.
    #[must_use]
    pub fn count_entries(&self) -> Option<u64> {
        plain(self.try_count_entries())
    }
}

#[cfg(feature = "alloc")]
impl Char16TrieCursor<'_> {
    /// Returns the units that can come next in some key, in ascending order and each once.
    ///
    /// There are none if [`is_empty`](Self::is_empty) returns true. ICU: `getNextUChars`.
    ///
    /// ```
    /// use bekstaudi::char16trie::Char16TrieBuilder;
    ///
    /// let mut builder = Char16TrieBuilder::new();
    /// builder.add_str("a", 1)?;
    /// builder.add_str("ab", 2)?;
    /// builder.add_str("b", 3)?;
    /// let trie = builder.try_build()?;
    /// assert_eq!(trie.cursor().next_units(), [0x61, 0x62]);
    /// # Ok::<(), Box<dyn std::error::Error>>(())
    /// ```
    ///
    /// # Panics
    /// Panics if an allocation fails; [`try_next_units`](Self::try_next_units) returns an error
    /// then.
    #[must_use]
    pub fn next_units(&self) -> Vec<u16> {
        plain(self.try_next_units())
    }

    /// Returns the value that all keys have that start with the units so far, or `None` if their
    /// values differ or there is no such key.
    ///
    /// If the units so far are a key, it counts too. A program that completes typed text can use
    /// this to see whether the rest still matters. If the units are no trie from this position on,
    /// the result is `None`. ICU: `hasUniqueValue`.
    ///
    /// Visits each node ahead once and stops at the second value; ICU visits a node once for each
    /// way that leads to it. Allocates one byte for each unit of the trie.
    ///
    /// ```
    /// use bekstaudi::char16trie::Char16TrieBuilder;
    ///
    /// let mut builder = Char16TrieBuilder::new();
    /// builder.add_str("a", 1)?;
    /// builder.add_str("ab", 1)?;
    /// builder.add_str("b", 3)?;
    /// let trie = builder.try_build()?;
    /// let mut cursor = trie.cursor();
    /// assert_eq!(cursor.unique_value(), None);
    /// cursor.step('a');
    /// assert_eq!(cursor.unique_value(), Some(1));
    /// # Ok::<(), Box<dyn std::error::Error>>(())
    /// ```
    ///
    /// # Panics
    /// Panics if an allocation fails; [`try_unique_value`](Self::try_unique_value) returns an error
    /// then.
    #[must_use]
    pub fn unique_value(&self) -> Option<i32> {
        plain(self.try_unique_value())
    }
}

#[cfg(feature = "alloc")]
impl Entries<'_> {
    /// Moves to the next entry and returns true, or returns false if none is left.
    ///
    /// After it has returned false or an `Err`, no entry is left. Allocates only if the key is
    /// longer than all before it, or nested below more branches.
    ///
    /// ```
    /// use bekstaudi::char16trie::Char16TrieBuilder;
    ///
    /// let mut builder = Char16TrieBuilder::new();
    /// builder.add_str("a", 1)?;
    /// builder.add_str("ab", 2)?;
    /// let trie = builder.try_build()?;
    /// let mut entries = trie.entries();
    /// let mut lengths = vec![];
    /// while entries.advance() {
    ///     lengths.push((entries.key().len(), entries.value()));
    /// }
    /// assert_eq!(lengths, [(1, 1), (2, 2)]);
    /// # Ok::<(), Box<dyn std::error::Error>>(())
    /// ```
    ///
    /// # Panics
    /// Panics if an allocation fails; [`try_advance`](Self::try_advance) returns an error then.
    #[must_use]
    pub fn advance(&mut self) -> bool {
        plain(self.try_advance())
    }
}

#[cfg(feature = "alloc")]
impl Default for Char16TrieBuilder {
    fn default() -> Self {
        Char16TrieBuilder::new()
    }
}
