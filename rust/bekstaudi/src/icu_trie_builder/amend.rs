//! Reading a builder's map, and making one from a trie. So a table can be amended: read its values
//! into a builder, write to it, and build it again.

use crate::icu_trie::cptrie::CodePointTrie;
use crate::icu_trie::ranges::CodePointMapRange;
use crate::icu_trie::value::TrieValue;
use crate::icu_trie_builder::builder::CodePointTrieBuilder;
use crate::icu_trie_core::walk::is_same;
use crate::icu_zerovec::{CODE_POINT_LIMIT, MemoryError};
use crate::support::prelude::*;

/// Returns the value with this number, which must exist.
#[inline]
fn value_of_number<T: TrieValue>(number: u32) -> T {
    match T::try_from_u32(number) {
        Ok(value) => value,
        Err(_) => unreachable!(),
    }
}

/// Returns the exclusive end of the run of this value from `c` on, by looking up each code point.
#[inline]
fn end_by_look_ups<T: TrieValue>(trie: &CodePointTrie<'_, T>, c: u32, value: T) -> u32 {
    for next in c + 1..CODE_POINT_LIMIT {
        if !is_same(trie.get32(next), value) {
            return next;
        }
    }
    CODE_POINT_LIMIT
}

/// Returns a range of code points from `c` on that have the value of `c`. In a coherent trie it is
/// the trie's range, which is exact; in any other trie, look-ups find its end.
fn run_from<T: TrieValue>(
    trie: &CodePointTrie<'_, T>,
    is_coherent: bool,
    c: u32,
) -> CodePointMapRange<T> {
    if is_coherent {
        return match trie.get_range(c) {
            Some(range) => range,
            None => unreachable!(),
        };
    }
    let value = trie.get32(c);
    let end = end_by_look_ups(trie, c, value);
    CodePointMapRange {
        range: c..=end - 1,
        value,
    }
}

impl<T: TrieValue> CodePointTrieBuilder<T> {
    /// Returns the value of the code point `c`, or the error value if `c` is above 0x10FFFF.
    ///
    /// ICU: `umutablecptrie_get`.
    ///
    /// ```
    /// use bekstaudi::codepointtrie::{CodePointTrieBuilder, TrieType};
    ///
    /// let mut builder = CodePointTrieBuilder::new(0u8, 9, TrieType::Fast);
    /// builder.set_range_value(0x41..=0x5A, 1);
    /// assert_eq!(builder.get(0x41), 1);
    /// assert_eq!(builder.get(0x5B), 0);
    /// assert_eq!(builder.get(0x110000), 9);
    /// ```
    #[must_use]
    #[inline]
    pub fn get(&self, c: u32) -> T {
        if c >= CODE_POINT_LIMIT {
            return self.error;
        }
        value_of_number(self.numbers.get(c as usize))
    }

    /// Returns the longest range of code points from `start` on that have the same value as
    /// `start`, or `None` if `start` is above 0x10FFFF.
    ///
    /// ICU: `umutablecptrie_getRange`.
    ///
    /// ```
    /// use bekstaudi::codepointtrie::{CodePointTrieBuilder, TrieType};
    ///
    /// let mut builder = CodePointTrieBuilder::new(0u8, 9, TrieType::Fast);
    /// builder.set_range_value(0x41..=0x5A, 1);
    /// let range = builder.get_range(0x50).expect("a code point");
    /// assert_eq!((range.range, range.value), (0x50..=0x5A, 1));
    /// ```
    #[must_use]
    #[inline]
    pub fn get_range(&self, start: u32) -> Option<CodePointMapRange<T>> {
        if start >= CODE_POINT_LIMIT {
            return None;
        }
        let number = self.numbers.get(start as usize);
        let end = self.numbers.find_other(start as usize, number);
        Some(CodePointMapRange {
            range: start..=end as u32 - 1,
            value: value_of_number(number),
        })
    }

    /// Sets the value of a range of code points that have the default, unless the value is the
    /// default.
    #[inline]
    fn fill(&mut self, run: CodePointMapRange<T>) -> Result<(), MemoryError> {
        if is_same(run.value, self.default) {
            return Ok(());
        }
        self.try_set_range_value(run.range, run.value)
    }

    /// Sets the value of each code point to that of a trie, range by range. All code points must
    /// have the default.
    #[inline]
    fn fill_from(&mut self, trie: &CodePointTrie<'_, T>) -> Result<(), MemoryError> {
        let is_coherent = trie.is_coherent();
        let mut next = 0;
        while next < CODE_POINT_LIMIT {
            let run = run_from(trie, is_coherent, next);
            next = *run.range.end() + 1;
            self.fill(run)?;
        }
        Ok(())
    }

    /// Makes a builder with the values of a trie, which can then be changed and built again. It has
    /// the trie's type and its error value.
    ///
    /// At every number it returns what the trie returns, even if the trie's header is wrong: it
    /// reads a coherent trie range by range, and any other one by look-ups. Code points for which
    /// the trie lacks a cell get the error value.
    ///
    /// The default is the value of 0x10FFFF, so that most code points need no memory.
    ///
    /// ICU: `umutablecptrie_fromUCPTrie`.
    ///
    /// ```
    /// use bekstaudi::codepointtrie::CodePointTrieBuilder;
    /// use bekstaudi::codepointtrie::planes::get_planes_trie;
    ///
    /// let mut builder = CodePointTrieBuilder::try_from_trie(&get_planes_trie())?;
    /// builder.try_set_value(0x41, 7)?;
    /// let amended = builder.try_build()?;
    /// assert_eq!(amended.get('A'), 7);
    /// assert_eq!(amended.get32(0x1F600), 1);
    /// # Ok::<(), Box<dyn std::error::Error>>(())
    /// ```
    ///
    /// # Errors
    /// Returns `MemoryError` if an allocation fails.
    #[inline]
    pub fn try_from_trie(
        trie: &CodePointTrie<'_, T>,
    ) -> Result<CodePointTrieBuilder<T>, MemoryError> {
        let (header, _, _) = trie.parts();
        let default = trie.get32(CODE_POINT_LIMIT - 1);
        let error = trie.error_value();
        let mut builder = CodePointTrieBuilder::new(default, error, header.trie_type);
        builder.fill_from(trie)?;
        Ok(builder)
    }
}
