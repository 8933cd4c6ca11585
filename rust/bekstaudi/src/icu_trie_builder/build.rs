//! Building a trie from a map: the map's values become numbers, the numbers become a trie, and the
//! cells of that trie become values again, which are packed one by one.

use crate::icu_trie::cptrie::CodePointTrie;
use crate::icu_trie::header::TrieType;
use crate::icu_trie::value::TrieValue;
use crate::icu_trie_builder::builder::CodePointTrieBuilder;
use crate::icu_trie_builder::error::BuildError;
use crate::icu_trie_builder::map::number_map::NumberMap;
use crate::icu_trie_builder::number_trie::{NumberTrie, build_numbers};
use crate::icu_trie_builder::writes::Write;
use crate::icu_zerovec::{MemoryError, ZeroVec};
use crate::support::prelude::*;

/// Returns the value with this number, or `default` if there is none.
#[inline(always)]
fn value_or<T: TrieValue>(number: u32, default: T) -> T {
    T::try_from_u32(number).unwrap_or(default)
}

/// Returns the values of these numbers, packed. Each value is packed as soon as it is made, so no
/// list of values is needed. Each number must be that of a value, so `default` is never used.
#[inline]
fn packed_values<T: TrieValue>(
    numbers: &[u32],
    default: T,
) -> Result<ZeroVec<'static, T>, MemoryError> {
    let values = numbers.iter().map(|number| value_or(*number, default));
    ZeroVec::alloc_from_iter(values)
}

/// Returns the trie of values that belongs to a trie of numbers.
fn trie_of<T: TrieValue>(
    trie: NumberTrie,
    default: T,
) -> Result<CodePointTrie<'static, T>, BuildError> {
    let NumberTrie {
        header,
        index,
        values,
    } = trie;
    let data = packed_values(&values, default)?;
    drop(values);
    let index = ZeroVec::alloc_from_slice(&index)?;
    match CodePointTrie::try_new(header, index, data) {
        Ok(trie) => Ok(trie),
        Err(_) => unreachable!(),
    }
}

/// Builds the trie of a map, given the number of each code point's value.
#[inline]
fn build_map<T: TrieValue>(
    numbers: &NumberMap,
    default: T,
    error: T,
    trie_type: TrieType,
) -> Result<CodePointTrie<'static, T>, BuildError> {
    let trie = build_numbers(numbers, error.to_u32(), default.to_u32(), trie_type)?;
    trie_of(trie, default)
}

impl<T: TrieValue> CodePointTrieBuilder<T> {
    /// Builds the trie of the map. It has the builder's trie type, and owns its index and its data.
    ///
    /// ```
    /// use bekstaudi::codepointtrie::{CodePointTrieBuilder, TrieType};
    ///
    /// let mut builder = CodePointTrieBuilder::new(0u16, 9, TrieType::Small);
    /// builder.try_set_value(0x20000, 10)?;
    /// let trie = builder.try_build()?;
    /// assert_eq!(trie.get32(0x20000), 10);
    /// assert_eq!(trie.get32(0x1FFFF), 0);
    /// # Ok::<(), Box<dyn std::error::Error>>(())
    /// ```
    ///
    /// # Errors
    /// The builder is consumed in both cases.
    /// - `BuildError::TooLarge` if the offset of a data block would need more than 18 bits, or the
    ///   offset of an index-3 block would reach 0x7fff. This happens only if the map has more than
    ///   800 different aligned blocks of 512 values, or more than 12,000 of 16.
    /// - `BuildError::Memory` if an allocation fails.
    #[inline]
    pub fn try_build(self) -> Result<CodePointTrie<'static, T>, BuildError> {
        build_map(&self.numbers, self.default, self.error, self.trie_type)
    }
}

/// Builds a trie from a list of writes, applied in order to a map that has the default everywhere.
/// Each code point gets the value of the last accepted write that covers it.
///
/// ```
/// use bekstaudi::codepointtrie::{TrieType, Write, try_build_from_writes};
///
/// let writes = [Write::Range(0x41..=0x5A, 1u8), Write::One(0x41, 0)];
/// let trie = try_build_from_writes(0, 9, TrieType::Fast, &writes)?;
/// assert_eq!(trie.get32(0x41), 0);
/// assert_eq!(trie.get32(0x5A), 1);
/// assert_eq!(trie.get32(0x110000), 9);
/// # Ok::<(), Box<dyn std::error::Error>>(())
/// ```
///
/// # Errors
/// - `BuildError::TooLarge` as for [`CodePointTrieBuilder::try_build`], but never if at most 256 writes
///   are accepted.
/// - `BuildError::Memory` if an allocation fails, in a write or in the build.
#[inline]
pub fn try_build_from_writes<T: TrieValue>(
    default: T,
    error: T,
    trie_type: TrieType,
    writes: &[Write<T>],
) -> Result<CodePointTrie<'static, T>, BuildError> {
    let mut builder = CodePointTrieBuilder::new(default, error, trie_type);
    if builder.apply(writes).is_err() {
        return Err(BuildError::Memory);
    }
    builder.try_build()
}
