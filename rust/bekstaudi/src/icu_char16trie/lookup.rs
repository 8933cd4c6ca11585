//! The value of a key.

use crate::icu_char16trie::dictionary::pass_match;
use crate::icu_char16trie::encoded::{node_end, unit_at};
use crate::icu_char16trie::impl_const::{MIN_VALUE_LEAD, VALUE_IS_FINAL};
use crate::icu_char16trie::step::value_by;
use crate::icu_char16trie::trie::Char16Trie;
use crate::support::prelude::*;

impl<'data> Char16Trie<'data> {
    /// Returns the value of the key with these units, or `None` if the trie does not have it.
    ///
    /// ICU: `UCharsTrie::reset`, `next` for each unit, and `getValue`.
    ///
    /// ```
    /// use bekstaudi::char16trie::Char16TrieBuilder;
    ///
    /// let mut builder = Char16TrieBuilder::new();
    /// builder.add_str("a", 1)?;
    /// builder.add_str("ab", 2)?;
    /// let trie = builder.try_build()?;
    /// assert_eq!(trie.get(&[0x61, 0x62]), Some(2));
    /// assert_eq!(trie.get(&[0x62]), None);
    /// # Ok::<(), Box<dyn std::error::Error>>(())
    /// ```
    #[must_use]
    pub fn get(&self, key: &[u16]) -> Option<i32> {
        let units = self.data.as_slice();
        let mut node = 0;
        let mut passed = 0;
        while passed < key.len() {
            let lead = unit_at(units, node)?;
            if lead >= VALUE_IS_FINAL {
                return None;
            }
            let place = node_end(node + 1, lead);
            let (next, count) = pass_match(units, place, lead % MIN_VALUE_LEAD, &key[passed..])?;
            node = next;
            passed += count;
        }
        let last = unit_at(units, node)?;
        value_by(units, node + 1, last)
    }
}
