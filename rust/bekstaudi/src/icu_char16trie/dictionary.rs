//! Finds the keys that a text starts with, as a dictionary finds words.

use crate::icu_char16trie::branch::child_in_branch;
use crate::icu_char16trie::encoded::{node_end, run_len, unit_at};
use crate::icu_char16trie::impl_const::{MIN_LINEAR_MATCH, MIN_VALUE_LEAD, VALUE_IS_FINAL};
use crate::icu_char16trie::matches::Matches;
use crate::icu_char16trie::step::value_by;
use crate::icu_char16trie::trie::Char16Trie;
use crate::icu_zerovec::ZeroSlice;
use crate::support::prelude::*;

/// Returns the match of the first `n` units if they have a value, and otherwise the earlier match.
#[inline(always)]
pub(crate) fn longer_match(
    n: usize,
    value: Option<i32>,
    found: Option<(usize, i32)>,
) -> Option<(usize, i32)> {
    match value {
        Some(v) => Some((n, v)),
        None => found,
    }
}

/// Returns true if `text` starts with the `count` units at `place`.
#[inline(always)]
fn begins_run(units: ZeroSlice<'_, u16>, place: usize, count: usize, text: &[u16]) -> bool {
    if text.len() < count {
        return false;
    }
    for i in 0..count {
        if unit_at(units, place + i) != Some(text[i]) {
            return false;
        }
    }
    true
}

/// Advances through `text` at a match node to the next node. Returns the index of that node and the
/// number of units consumed. `low` is the low six bits of the match node's lead unit, and `place`
/// is the index after the lead and its value.
#[inline(always)]
pub(crate) fn pass_match(
    units: ZeroSlice<'_, u16>,
    place: usize,
    low: u16,
    text: &[u16],
) -> Option<(usize, usize)> {
    if low >= MIN_LINEAR_MATCH {
        let count = run_len(low);
        if !begins_run(units, place, count, text) {
            return None;
        }
        return Some((place + count, count));
    }
    if text.is_empty() {
        return None;
    }
    let child = child_in_branch(units, place, low, text[0])?;
    Some((child, 1))
}

impl<'data> Char16Trie<'data> {
    /// Returns the longest key that `text` starts with: its length in units and its value.
    ///
    /// Returns `None` if `text` starts with no key. The empty key matches at the start of every
    /// text. Reads no more units of `text` than some key continues with. In ICU this is a loop over
    /// `UCharsTrie::next` that ends when `USTRINGTRIE_HAS_NEXT` is false.
    ///
    /// ```
    /// use bekstaudi::char16trie::Char16TrieBuilder;
    ///
    /// let mut builder = Char16TrieBuilder::new();
    /// builder.add_str("a", 1)?;
    /// builder.add_str("ab", 2)?;
    /// let trie = builder.try_build()?;
    /// assert_eq!(trie.longest_match(&[0x61, 0x62, 0x63]), Some((2, 2)));
    /// assert_eq!(trie.longest_match(&[0x61, 0x63]), Some((1, 1)));
    /// assert_eq!(trie.longest_match(&[0x62]), None);
    /// # Ok::<(), Box<dyn std::error::Error>>(())
    /// ```
    #[must_use]
    pub fn longest_match(&self, text: &[u16]) -> Option<(usize, i32)> {
        let units = self.data.as_slice();
        let mut node = 0;
        let mut passed = 0;
        let mut found = None;
        while let Some(lead) = unit_at(units, node) {
            found = longer_match(passed, value_by(units, node + 1, lead), found);
            if lead >= VALUE_IS_FINAL {
                return found;
            }
            let place = node_end(node + 1, lead);
            let Some((next, count)) =
                pass_match(units, place, lead % MIN_VALUE_LEAD, &text[passed..])
            else {
                return found;
            };
            node = next;
            passed += count;
        }
        found
    }

    /// Returns all keys that `text` starts with, the shortest first: the length of each in units
    /// and its value.
    ///
    /// Allocates nothing, and reads no more units of `text` than some key continues with.
    ///
    /// ```
    /// use bekstaudi::char16trie::Char16TrieBuilder;
    ///
    /// let mut builder = Char16TrieBuilder::new();
    /// builder.add_str("a", 1)?;
    /// builder.add_str("ab", 2)?;
    /// let trie = builder.try_build()?;
    /// // The length and the value of each key.
    /// let matches: Vec<_> = trie.matches(&[0x61, 0x62, 0x63]).collect();
    /// assert_eq!(matches, [(1, 1), (2, 2)]);
    /// # Ok::<(), Box<dyn std::error::Error>>(())
    /// ```
    #[inline]
    pub fn matches<'a>(&'a self, text: &'a [u16]) -> Matches<'a> {
        Matches::new(self.cursor(), text)
    }
}
