//! Look-up with a result for each step, the interface from before the Rust crate had a cursor.

use crate::icu_char16trie::cursor::Char16TrieCursor;
use crate::icu_zerovec::ZeroSlice;
use crate::support::prelude::*;

/// The result of a step: what the units so far are.
#[derive(Clone, Copy, Debug, PartialEq, Eq, Hash)]
pub enum TrieResult {
    /// They match nothing, or lead to a node that is missing. More units match nothing either.
    NoMatch,
    /// They are not a key, and some key continues after them.
    NoValue,
    /// They are a key with this value, and no key continues after them.
    FinalValue(i32),
    /// They are a key with this value, and some key continues after them.
    Intermediate(i32),
}

/// A cursor that returns a result for each step.
#[derive(Clone, Debug)]
pub struct Char16TrieIterator<'a> {
    cursor: Char16TrieCursor<'a>,
}

impl<'a> Char16TrieIterator<'a> {
    /// Creates an iterator at the root of the trie with these units.
    #[inline]
    #[must_use]
    pub fn new<S: Into<ZeroSlice<'a, u16>>>(trie: S) -> Self {
        Char16TrieIterator {
            cursor: Char16TrieCursor::new(trie),
        }
    }

    /// Advances by the UTF-16 units of the character `c` and returns the result.
    ///
    /// ```
    /// use bekstaudi::char16trie::{Char16TrieBuilder, TrieResult};
    ///
    /// let mut builder = Char16TrieBuilder::new();
    /// builder.add_str("a", 1)?;
    /// builder.add_str("ab", 2)?;
    /// let trie = builder.try_build()?;
    /// let mut iterator = trie.iter();
    /// assert_eq!(iterator.next('a'), TrieResult::Intermediate(1));
    /// assert_eq!(iterator.next('b'), TrieResult::FinalValue(2));
    /// assert_eq!(iterator.next('b'), TrieResult::NoMatch);
    /// # Ok::<(), Box<dyn std::error::Error>>(())
    /// ```
    #[inline]
    pub fn next(&mut self, c: char) -> TrieResult {
        self.next32(c as u32)
    }

    /// Advances by the UTF-16 units of the code point `c` and returns the result. Surrogates are
    /// one unit each. Above 0x10FFFF the result is [`TrieResult::NoMatch`].
    #[inline]
    pub fn next32(&mut self, c: u32) -> TrieResult {
        self.cursor.step32(c);
        self.result()
    }

    /// Advances by the unit `c` and returns the result.
    #[inline]
    pub fn next16(&mut self, c: u16) -> TrieResult {
        self.cursor.step16(c);
        self.result()
    }

    /// Returns what the units so far are.
    #[inline]
    fn result(&self) -> TrieResult {
        match (self.cursor.value(), self.cursor.is_empty()) {
            (Some(value), true) => TrieResult::FinalValue(value),
            (Some(value), false) => TrieResult::Intermediate(value),
            (None, true) => TrieResult::NoMatch,
            (None, false) => TrieResult::NoValue,
        }
    }
}
