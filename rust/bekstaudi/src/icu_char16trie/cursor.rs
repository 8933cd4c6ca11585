//! A cursor over the units of a trie.

use crate::icu_char16trie::listing::Entries;
use crate::icu_char16trie::next_units::add_units;
use crate::icu_char16trie::place::{CursorPlace, Place, numbers_of, place_of};
use crate::icu_char16trie::step::{is_empty_at, step, value_at};
use crate::icu_char16trie::unique::unique_value_at;
use crate::icu_zerovec::{MemoryError, ZeroSlice};
use crate::support::prelude::*;

/// A cursor over the units of a trie, for looking up keys unit by unit.
///
/// After the units of a key its value is the key's value. It is empty if no key continues after the
/// units so far. The units may be anything: if one that is needed is missing, nothing matches.
#[derive(Clone, Debug)]
pub struct Char16TrieCursor<'a> {
    units: ZeroSlice<'a, u16>,
    place: Place,
}

impl<'a> Char16TrieCursor<'a> {
    /// Creates a cursor at the root of the trie with these units.
    #[inline]
    #[must_use]
    pub fn new<S: Into<ZeroSlice<'a, u16>>>(trie: S) -> Self {
        Char16TrieCursor {
            units: trie.into(),
            place: Place::Node(0),
        }
    }

    /// Creates a cursor at `place` in the trie with these units.
    ///
    /// `place` may come from another trie or from untrusted input. ICU: `resetToState`.
    ///
    /// ```
    /// use bekstaudi::char16trie::{Char16Trie, Char16TrieCursor};
    ///
    /// let trie = Char16Trie::new([0x31, 0x61, 0x62, 0x8003].into_iter().collect());
    /// let mut cursor = trie.cursor();
    /// cursor.step('a');
    /// let mut same = Char16TrieCursor::resume(trie.data.as_slice(), cursor.place());
    /// same.step('b');
    /// assert_eq!(same.value(), Some(3));
    /// ```
    #[inline]
    #[must_use]
    pub fn resume(trie: ZeroSlice<'a, u16>, place: CursorPlace) -> Self {
        Char16TrieCursor {
            units: trie,
            place: place_of(place),
        }
    }

    /// Returns the position of the cursor, from which [`resume`](Self::resume) continues.
    ///
    /// ICU: `saveState`.
    #[inline]
    #[must_use]
    pub fn place(&self) -> CursorPlace {
        numbers_of(self.place)
    }

    /// Advances by one unit. If nothing matched before, nothing matches now.
    #[inline(always)]
    pub fn step16(&mut self, unit: u16) {
        self.place = step(self.units, self.place, unit);
    }

    /// Advances by the UTF-16 units of the code point `c`: one unit below 0x10000, surrogates
    /// included, and two from there to 0x10FFFF. Above 0x10FFFF nothing matches. If nothing matched
    /// before, nothing matches now.
    #[inline(always)]
    pub fn step32(&mut self, c: u32) {
        if let Ok(unit) = u16::try_from(c) {
            self.step16(unit);
        } else if c <= 0x10_FFFF {
            let supplementary = c - 0x1_0000;
            self.step16((0xD800 + supplementary / 0x400) as u16);
            self.step16((0xDC00 + supplementary % 0x400) as u16);
        } else {
            self.place = Place::Nowhere;
        }
    }

    /// Advances by the UTF-16 units of the character `c`: one below U+10000, and two from there on. If
    /// nothing matched before, nothing matches now.
    #[inline(always)]
    pub fn step(&mut self, c: char) {
        self.step32(c as u32);
    }

    /// Returns the value of the units so far if they are a key. The value is 0 if some of its own
    /// units are missing.
    #[inline]
    #[must_use]
    pub fn value(&self) -> Option<i32> {
        value_at(self.units, self.place)
    }

    /// Returns true if no key continues after the units so far: if they match nothing, if they end
    /// in a final value, or if the lead unit of their node is missing.
    #[inline]
    #[must_use]
    pub fn is_empty(&self) -> bool {
        is_empty_at(self.units, self.place)
    }

    /// Returns the entries whose keys start with the units so far, in unit order, each key without
    /// those units.
    ///
    /// A dictionary completes typed text this way. If the units so far are a key, the first entry
    /// has the empty text. In the middle of a linear match each text starts with the rest of it. If
    /// nothing matched, there are no entries. ICU: `UCharsTrie::Iterator` of a trie that is not at
    /// its root.
    ///
    /// ```
    /// use bekstaudi::char16trie::Char16TrieBuilder;
    ///
    /// let mut builder = Char16TrieBuilder::new();
    /// builder.add_str("a", 1)?;
    /// builder.add_str("ab", 2)?;
    /// builder.add_str("b", 3)?;
    /// let trie = builder.try_build()?;
    /// let mut cursor = trie.cursor();
    /// cursor.step('a');
    /// let mut entries = cursor.entries();
    /// assert!(entries.advance());
    /// assert_eq!((entries.key(), entries.value()), ("", 1));
    /// assert!(entries.advance());
    /// assert_eq!((entries.key(), entries.value()), ("b", 2));
    /// assert!(!entries.advance());
    /// # Ok::<(), Box<dyn std::error::Error>>(())
    /// ```
    #[inline]
    #[must_use]
    pub fn entries(&self) -> Entries<'a> {
        Entries::new(self.units, self.place)
    }

    /// Returns the units that can come next in some key, in ascending order and each once.
    ///
    /// There are none if [`is_empty`](Self::is_empty) returns true. ICU: `getNextUChars`.
    ///
    /// ```
    /// use bekstaudi::char16trie::Char16TrieBuilder;
    ///
    /// let mut builder = Char16TrieBuilder::new();
    /// builder.add_str("a", 1)?;
    /// builder.add_str("ab", 2)?;
    /// builder.add_str("b", 3)?;
    /// let trie = builder.try_build()?;
    /// assert_eq!(trie.cursor().try_next_units()?, [0x61, 0x62]);
    /// # Ok::<(), Box<dyn std::error::Error>>(())
    /// ```
    ///
    /// # Errors
    /// Returns `MemoryError` if an allocation fails.
    #[inline]
    pub fn try_next_units(&self) -> Result<Vec<u16>, MemoryError> {
        let mut list = Vec::new();
        add_units(&mut list, self.units, self.place)?;
        Ok(list)
    }

    /// Returns the value that all keys have that start with the units so far, or `None` if their
    /// values differ or there is no such key.
    ///
    /// If the units so far are a key, it counts too. A program that completes typed text can use
    /// this to see whether the rest still matters. If the units are no trie from this position on,
    /// the result is `None`. ICU: `hasUniqueValue`.
    ///
    /// Visits each node ahead once and stops at the second value; ICU visits a node once for each
    /// way that leads to it. Allocates one byte for each unit of the trie.
    ///
    /// ```
    /// use bekstaudi::char16trie::Char16TrieBuilder;
    ///
    /// let mut builder = Char16TrieBuilder::new();
    /// builder.add_str("a", 1)?;
    /// builder.add_str("ab", 1)?;
    /// builder.add_str("b", 3)?;
    /// let trie = builder.try_build()?;
    /// let mut cursor = trie.cursor();
    /// assert_eq!(cursor.try_unique_value()?, None);
    /// cursor.step('a');
    /// assert_eq!(cursor.try_unique_value()?, Some(1));
    /// # Ok::<(), Box<dyn std::error::Error>>(())
    /// ```
    ///
    /// # Errors
    /// Returns `MemoryError` if an allocation fails.
    #[inline]
    pub fn try_unique_value(&self) -> Result<Option<i32>, MemoryError> {
        unique_value_at(self.units, self.place)
    }
}
