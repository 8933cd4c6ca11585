//! Collects entries and builds a trie.

use crate::icu_char16trie::char16trie::Char16Trie;
use crate::icu_char16trie_builder::entry::Entry;
use crate::icu_char16trie_builder::error::{AddError, BuildError, SortedError};
use crate::icu_char16trie_builder::sorted::{entries_of_pairs, refusal};
use crate::icu_char16trie_builder::text::{is_too_long, units_of_text};
use crate::icu_char16trie_builder::units::units_of;
use crate::icu_zerovec::{MemoryError, ZeroVec};
use crate::support::AllocError;
use crate::support::prelude::*;
use crate::support::{BTreeMap, btree_map};

/// The largest number of units in a key.
pub(crate) const LONGEST_KEY: usize = 65_535;

/// The largest number of units that a trie may need: it is a number that a jump can encode.
const MOST_UNITS: u64 = 0x7FFF_FFFF;

/// A builder of a trie from entries: keys of 16-bit units, each with a value.
///
/// ICU: `UCharsTrieBuilder`.
///
/// ```
/// use bekstaudi::char16trie::{AddError, Char16TrieBuilder};
///
/// let mut builder = Char16TrieBuilder::new();
/// builder.add(&[0x61, 0x62], 2)?;
/// builder.add_str("a", 1)?;
/// assert_eq!(builder.add_str("a", 3), Err(AddError::Duplicate));
/// let trie = builder.try_build()?;
/// let entries: Vec<_> = trie.iter2().collect();
/// assert_eq!(entries, [("a".into(), 1), ("ab".into(), 2)]);
/// # Ok::<(), Box<dyn std::error::Error>>(())
/// ```
#[derive(Debug, Clone)]
pub struct Char16TrieBuilder {
    entries: BTreeMap<Vec<u16>, i32>,
}

/// Returns why a key cannot be added if there is no memory for a copy of it.
#[cold]
fn without_memory(entries: &BTreeMap<Vec<u16>, i32>, key: &[u16]) -> AddError {
    if entries.contains_key(key) {
        return AddError::Duplicate;
    }
    AddError::Memory
}

/// Adds an entry to a map, which takes ownership of the key and is searched once. On an error the
/// map is unchanged.
#[inline]
fn insert(
    entries: &mut BTreeMap<Vec<u16>, i32>,
    key: Vec<u16>,
    value: i32,
) -> Result<(), AddError> {
    let Ok(entry) = entries.entry(key) else {
        return Err(AddError::Memory);
    };
    match entry {
        btree_map::Entry::Vacant(entry) => {
            entry.insert_entry(value);
            Ok(())
        }
        btree_map::Entry::Occupied(_) => Err(AddError::Duplicate),
    }
}

/// Returns the entries of a map, in their order.
#[inline]
fn entries_of<'a>(entries: &'a BTreeMap<Vec<u16>, i32>) -> Result<Vec<Entry<'a>>, AllocError> {
    let mut list = Vec::new();
    for (key, value) in entries {
        list.try_push(Entry {
            key: key.as_slice(),
            value: *value,
        })?;
    }
    Ok(list)
}

/// Returns the number of units in the first entry's key.
#[inline]
fn first_len(entries: &[Entry<'_>]) -> usize {
    entries[0].key.len()
}

/// Returns the bound for entries whose bound is `total` and one more whose key has `len` units, or
/// `None` if it is too large.
#[inline]
pub(crate) fn total_with(total: u64, len: usize) -> Option<u64> {
    let len = len as u64;
    if len > MOST_UNITS {
        return None;
    }
    let more = total + 2 * len + 16;
    if more > MOST_UNITS {
        return None;
    }
    Some(more)
}

/// Returns true if no trie of the entries can need too many units.
#[inline]
fn fits(entries: &[Entry<'_>]) -> bool {
    let mut total: u64 = 0;
    for i in 0..entries.len() {
        let Some(more) = total_with(total, first_len(entries.split_at(i).1)) else {
            return false;
        };
        total = more;
    }
    true
}

/// Returns the units of a trie of the entries. Without entries there are no units.
#[inline]
fn trie_units(entries: &[Entry<'_>]) -> Result<Vec<u16>, AllocError> {
    if entries.is_empty() {
        return Ok(Vec::new());
    }
    units_of(entries)
}

/// Returns the trie of the entries.
#[inline]
fn trie_of(entries: &[Entry<'_>]) -> Result<Char16Trie<'static>, MemoryError> {
    let units = trie_units(entries)?;
    let trie = Char16Trie::new(ZeroVec::alloc_from_slice(units.as_slice())?);
    Ok(trie)
}

impl Char16TrieBuilder {
    /// Creates a builder without entries. Allocates nothing.
    #[must_use]
    #[inline]
    pub fn new() -> Self {
        Char16TrieBuilder {
            entries: BTreeMap::new(),
        }
    }

    /// Adds an entry. Keys may be added in any order. A key may be empty, and may be a prefix of
    /// another.
    ///
    /// # Errors
    /// - `KeyTooLong` if and only if the key has more than 65,535 units.
    /// - Otherwise `Duplicate` if and only if there is already an entry with this key.
    /// - Otherwise `Memory` if an allocation fails.
    ///
    /// On an error the entries are unchanged.
    #[inline]
    pub fn add(&mut self, key: &[u16], value: i32) -> Result<(), AddError> {
        if key.len() > LONGEST_KEY {
            return Err(AddError::KeyTooLong);
        }
        let Ok(units) = Vec::from_slice(key) else {
            return Err(without_memory(&self.entries, key));
        };
        insert(&mut self.entries, units, value)
    }

    /// Adds an entry whose key is a text, as its units in UTF-16.
    ///
    /// ```
    /// use bekstaudi::char16trie::{AddError, Char16TrieBuilder};
    ///
    /// let mut builder = Char16TrieBuilder::new();
    /// builder.add_str("\u{1F600}", 3)?;
    /// assert_eq!(builder.add(&[0xD83D, 0xDE00], 3), Err(AddError::Duplicate));
    /// # Ok::<(), Box<dyn std::error::Error>>(())
    /// ```
    ///
    /// # Errors
    /// - `KeyTooLong` if and only if the text has more than 65,535 units in UTF-16.
    /// - Otherwise `Duplicate` if there is already an entry with this key.
    /// - `Memory` if an allocation fails. The units of the key are allocated first, so this may
    ///   also happen for a duplicate key.
    ///
    /// On an error the entries are unchanged.
    #[inline]
    pub fn add_str(&mut self, key: &str, value: i32) -> Result<(), AddError> {
        if is_too_long(key) {
            return Err(AddError::KeyTooLong);
        }
        let Ok(units) = units_of_text(key) else {
            return Err(AddError::Memory);
        };
        insert(&mut self.entries, units, value)
    }

    /// Returns the number of entries.
    #[must_use]
    #[inline]
    pub fn len(&self) -> usize {
        self.entries.len()
    }

    /// Returns true if there are no entries.
    #[must_use]
    #[inline]
    pub fn is_empty(&self) -> bool {
        self.entries.is_empty()
    }

    /// Builds the trie of the entries. Without entries it has no units.
    ///
    /// If E entries have keys with U units in all, the trie has at most 2 U + 16 E units. Equal
    /// nodes that are reached by a jump are written once.
    ///
    /// # Errors
    /// Both errors drop the entries.
    ///
    /// - `TooLarge` if 2 U + 16 E is more than `0x7FFF_FFFF`.
    /// - `Memory` if an allocation fails. This can happen before the size is checked.
    #[inline]
    pub fn try_build(self) -> Result<Char16Trie<'static>, BuildError> {
        let entries = entries_of(&self.entries)?;
        if !fits(entries.as_slice()) {
            return Err(BuildError::TooLarge);
        }
        let trie = trie_of(entries.as_slice())?;
        Ok(trie)
    }

    /// Builds the trie of entries whose keys already strictly ascend in unit order. Without entries
    /// it has no units.
    ///
    /// The trie is the one that a builder builds from these entries, but no key is copied.
    ///
    /// ```
    /// use bekstaudi::char16trie::Char16TrieBuilder;
    ///
    /// let entries: [(&[u16], i32); 2] = [(&[0x61], 1), (&[0x61, 0x62], 2)];
    /// let trie = Char16TrieBuilder::build_sorted(&entries)?;
    /// assert_eq!(trie.longest_match_str("ab"), Some((2, 2)));
    /// # Ok::<(), Box<dyn std::error::Error>>(())
    /// ```
    ///
    /// # Errors
    /// The first two carry the index, counted from 0, of the first entry that is not valid:
    ///
    /// - `KeyTooLong` if and only if its key has more than 65,535 units.
    /// - `NotAscending` otherwise: its key is equal to the key before it, or less.
    /// - `TooLarge` if and only if all entries are valid and 2 U + 16 E is more than `0x7FFF_FFFF`,
    ///   for E entries with U units in their keys.
    /// - `Memory` if an allocation fails. The other errors are found without allocating.
    #[inline]
    pub fn build_sorted(entries: &[(&[u16], i32)]) -> Result<Char16Trie<'static>, SortedError> {
        if let Some(error) = refusal(entries) {
            return Err(error);
        }
        let list = entries_of_pairs(entries)?;
        let trie = trie_of(list.as_slice())?;
        Ok(trie)
    }
}
