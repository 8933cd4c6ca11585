//! A map from code points that is written to, and then built into a trie.

use crate::icu_trie::header::TrieType;
use crate::icu_trie::value::TrieValue;
use crate::icu_trie_builder::map::number_map::NumberMap;
use crate::icu_trie_builder::writes::{ApplyRefused, Write};
use crate::icu_zerovec::{CODE_POINT_LIMIT, MemoryError};
use crate::support::prelude::*;
use core::ops::RangeInclusive;

/// A map from code points to values that can be changed, and then built into a trie.
///
/// ICU: `UMutableCPTrie`.
///
/// ```
/// use bekstaudi::codepointtrie::{CodePointTrieBuilder, TrieType};
///
/// let mut builder = CodePointTrieBuilder::new(0u8, 9, TrieType::Fast);
/// builder.set_range_value(0x41..=0x5A, 1);
/// builder.set_value(0x41, 0);
/// let trie = builder.build();
/// assert_eq!(trie.get32(0x41), 0);
/// assert_eq!(trie.get32(0x42), 1);
/// assert_eq!(trie.get32(0x110000), 9);
/// ```
#[derive(Debug, Clone)]
pub struct CodePointTrieBuilder<T: TrieValue> {
    // The number of each code point's value.
    pub(crate) numbers: NumberMap,
    pub(crate) default: T,
    pub(crate) error: T,
    pub(crate) trie_type: TrieType,
}

impl<T: TrieValue> CodePointTrieBuilder<T> {
    /// Makes a map that has the default at every code point. It allocates nothing.
    ///
    /// `error` is the value of all numbers above 0x10FFFF, and `trie_type` the type of the trie to
    /// build.
    #[must_use]
    #[inline]
    pub fn new(default: T, error: T, trie_type: TrieType) -> Self {
        CodePointTrieBuilder {
            numbers: NumberMap::new(default.to_u32()),
            default,
            error,
            trie_type,
        }
    }

    /// Sets the value of the code point `c`. If `c` is above 0x10FFFF, nothing is written.
    ///
    /// ```
    /// use bekstaudi::codepointtrie::{CodePointTrieBuilder, TrieType};
    ///
    /// let mut builder = CodePointTrieBuilder::new(0u8, 9, TrieType::Fast);
    /// builder.try_set_value(0x1234, 7)?;
    /// builder.try_set_value(0x110000, 8)?;
    /// assert_eq!(builder.get(0x1234), 7);
    /// assert_eq!(builder.get(0x110000), 9);
    /// # Ok::<(), Box<dyn std::error::Error>>(())
    /// ```
    ///
    /// # Errors
    /// Returns `MemoryError` if an allocation fails. The map is then unchanged. It never fails if
    /// nothing is written.
    #[inline]
    pub fn try_set_value(&mut self, c: u32, value: T) -> Result<(), MemoryError> {
        self.try_set_range_value(c..=c, value)
    }

    /// Sets the value of each code point in `range`, whose bounds are both inclusive.
    ///
    /// If the range is reversed or starts above 0x10FFFF, nothing is written. If it ends above
    /// 0x10FFFF, the code points up to 0x10FFFF are written.
    ///
    /// ```
    /// use bekstaudi::codepointtrie::{CodePointTrieBuilder, TrieType};
    ///
    /// let mut builder = CodePointTrieBuilder::new(0u8, 9, TrieType::Fast);
    /// builder.try_set_range_value(0x1000..=0x1FFF, 8)?;
    /// builder.try_set_range_value(0x10FFFF..=0x110005, 1)?;
    /// assert_eq!(builder.get(0x1FFF), 8);
    /// assert_eq!(builder.get(0x10FFFF), 1);
    /// # Ok::<(), Box<dyn std::error::Error>>(())
    /// ```
    ///
    /// # Errors
    /// Returns `MemoryError` if an allocation fails. The map is then unchanged. It never fails if
    /// nothing is written.
    #[inline]
    pub fn try_set_range_value(
        &mut self,
        range: RangeInclusive<u32>,
        value: T,
    ) -> Result<(), MemoryError> {
        let start = *range.start() as usize;
        let end = (*range.end() as usize).min(CODE_POINT_LIMIT as usize - 1);
        if start > end {
            return Ok(());
        }
        self.numbers.set_range(start, end + 1, value.to_u32())?;
        Ok(())
    }

    /// Applies these writes in order.
    ///
    /// ```
    /// use bekstaudi::codepointtrie::{CodePointTrieBuilder, TrieType, Write};
    ///
    /// let mut builder = CodePointTrieBuilder::new(0u8, 9, TrieType::Fast);
    /// builder.apply(&[Write::Range(0x1FFF..=0x2000, 11), Write::One(0x2000, 10)])?;
    /// assert_eq!(builder.get(0x1FFF), 11);
    /// assert_eq!(builder.get(0x2000), 10);
    /// # Ok::<(), Box<dyn std::error::Error>>(())
    /// ```
    ///
    /// # Errors
    /// Returns `ApplyRefused` with the index of the first write for which an allocation fails. The
    /// writes before it have been applied, and no others.
    #[inline]
    pub fn apply(&mut self, writes: &[Write<T>]) -> Result<(), ApplyRefused> {
        for (i, write) in writes.iter().enumerate() {
            if self.write(write).is_err() {
                return Err(ApplyRefused(i));
            }
        }
        Ok(())
    }

    /// Applies one write.
    #[inline]
    fn write(&mut self, write: &Write<T>) -> Result<(), MemoryError> {
        match write {
            Write::One(c, value) => self.try_set_value(*c, *value),
            Write::Range(range, value) => {
                self.try_set_range_value(*range.start()..=*range.end(), *value)
            }
        }
    }
}
