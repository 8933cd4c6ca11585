//! Reads a trie from TOML in the form that ICU4C exports: a table with the header, the index, and
//! the data in one of three widths.

#![cfg(any(feature = "toml", feature = "serde"))]
use crate::support::prelude::*;
mod tables;

use crate::icu_trie::cptrie::CodePointTrie;
use crate::icu_trie::error::{CodePointTrieError, PartsError};
use crate::icu_trie::header::{CodePointTrieHeader, TrieType};
use crate::icu_trie::value::TrieValue;
use crate::icu_zerovec::MemoryError;

/// Why a table is rejected.
#[derive(Clone, Copy, Debug, PartialEq, Eq, Hash)]
#[non_exhaustive]
pub enum TomlError {
    /// The value at this required key is missing.
    Missing(&'static str),
    /// The value at this key, or an item of its array, is of another kind or out of range.
    OutOfRange(&'static str),
    /// An allocation failed.
    Memory,
}

impl From<MemoryError> for TomlError {
    #[inline]
    fn from(_error: MemoryError) -> TomlError {
        TomlError::Memory
    }
}

/// Why the contents of a table are not a trie.
#[derive(Clone, Copy, Debug, PartialEq, Eq, Hash)]
#[non_exhaustive]
pub enum TrieFromTomlError {
    /// The parts do not form a trie.
    Trie(CodePointTrieError),
    /// The table itself was rejected. The conversion never returns this: it is for `?` in a
    /// function that both reads a table and converts it to a trie.
    Table(TomlError),
    /// An allocation failed.
    Memory,
}

impl From<CodePointTrieError> for TrieFromTomlError {
    #[inline]
    fn from(error: CodePointTrieError) -> TrieFromTomlError {
        TrieFromTomlError::Trie(error)
    }
}

impl From<MemoryError> for TrieFromTomlError {
    #[inline]
    fn from(_error: MemoryError) -> TrieFromTomlError {
        TrieFromTomlError::Memory
    }
}

/// For `?` after reading a table. `Memory` stays `Memory`.
impl From<TomlError> for TrieFromTomlError {
    #[inline]
    fn from(error: TomlError) -> TrieFromTomlError {
        match error {
            TomlError::Memory => TrieFromTomlError::Memory,
            TomlError::Missing(_) | TomlError::OutOfRange(_) => TrieFromTomlError::Table(error),
        }
    }
}

/// The data cells of a trie in a table, in their width there.
#[derive(Clone, Copy, Debug, PartialEq, Eq)]
pub enum CodePointDataSlice<'a> {
    /// 8-bit cells.
    U8(&'a [u8]),
    /// 16-bit cells.
    U16(&'a [u16]),
    /// 32-bit cells.
    U32(&'a [u32]),
}

/// The numbers of a table besides its arrays.
#[derive(Clone, Copy, Debug)]
pub(crate) struct TomlFields {
    pub(crate) high_start: u32,
    pub(crate) shifted12_high_start: u16,
    pub(crate) trie_type: u8,
    // Not read again: which data array the table has decides the width.
    #[allow(dead_code)]
    pub(crate) value_width: u8,
    pub(crate) index3_null_offset: u16,
    pub(crate) data_null_offset: u32,
    pub(crate) null_value: u32,
}

/// The contents of a TOML table with a trie, as ICU4C exports it.
#[derive(Debug, Clone)]
pub struct CodePointTrieToml {
    pub(crate) index: Vec<u16>,
    pub(crate) data_8: Option<Vec<u8>>,
    pub(crate) data_16: Option<Vec<u16>>,
    pub(crate) data_32: Option<Vec<u32>>,
    pub(crate) fields: TomlFields,
}

/// Returns the values whose numbers are in the cells.
fn values_of<N: TrieValue, T: TrieValue>(cells: &[N]) -> Result<Vec<T>, TrieFromTomlError> {
    let Ok(mut values) = Vec::with_room(cells.len()) else {
        return Err(TrieFromTomlError::Memory);
    };
    for cell in cells {
        let Ok(value) = T::try_from_u32(cell.to_u32()) else {
            return Err(TrieFromTomlError::Trie(
                CodePointTrieError::FromDeserialized {
                    reason: "Could not parse data array to typed array",
                },
            ));
        };
        let Ok(()) = values.try_push(value) else {
            return Err(TrieFromTomlError::Memory);
        };
    }
    Ok(values)
}

impl CodePointTrieToml {
    /// Returns the cells of the index.
    #[must_use]
    #[inline]
    pub const fn index_slice(&self) -> &[u16] {
        self.index.as_slice()
    }

    /// Returns the cells of the data: the first array among `data_8`, `data_16` and `data_32` in
    /// the table.
    ///
    /// # Errors
    /// Returns `FromDeserialized` if the table has none of them.
    #[inline]
    pub const fn data_slice(&self) -> Result<CodePointDataSlice<'_>, CodePointTrieError> {
        if let Some(cells) = &self.data_8 {
            Ok(CodePointDataSlice::U8(cells.as_slice()))
        } else if let Some(cells) = &self.data_16 {
            Ok(CodePointDataSlice::U16(cells.as_slice()))
        } else if let Some(cells) = &self.data_32 {
            Ok(CodePointDataSlice::U32(cells.as_slice()))
        } else {
            Err(CodePointTrieError::FromDeserialized {
                reason: "Did not find data array for CodePointTrie in TOML",
            })
        }
    }
}

/// Reads the header of the table.
///
/// # Errors
/// Returns `FromDeserialized` if the number at `type` is not the number of a trie type.
impl TryFrom<&CodePointTrieToml> for CodePointTrieHeader {
    type Error = CodePointTrieError;

    #[inline]
    fn try_from(toml: &CodePointTrieToml) -> Result<CodePointTrieHeader, CodePointTrieError> {
        let fields = &toml.fields;
        Ok(CodePointTrieHeader {
            high_start: fields.high_start,
            shifted12_high_start: fields.shifted12_high_start,
            index3_null_offset: fields.index3_null_offset,
            data_null_offset: fields.data_null_offset,
            null_value: fields.null_value,
            trie_type: TrieType::try_from(fields.trie_type)?,
        })
    }
}

/// Returns the values of the data of a table.
#[inline]
fn typed_data<T: TrieValue>(toml: &CodePointTrieToml) -> Result<Vec<T>, TrieFromTomlError> {
    match toml.data_slice()? {
        CodePointDataSlice::U8(cells) => values_of(cells),
        CodePointDataSlice::U16(cells) => values_of(cells),
        CodePointDataSlice::U32(cells) => values_of(cells),
    }
}

/// Returns the trie of these parts. It owns its cells.
#[inline]
fn trie_with<T: TrieValue>(
    header: CodePointTrieHeader,
    index: &[u16],
    values: &[T],
) -> Result<CodePointTrie<'static, T>, TrieFromTomlError> {
    match CodePointTrie::alloc_from_slices(header, index, values) {
        Ok(trie) => Ok(trie),
        Err(PartsError::Trie(error)) => Err(TrieFromTomlError::Trie(error)),
        Err(PartsError::Memory) => Err(TrieFromTomlError::Memory),
    }
}

/// Creates the trie of the table. It owns its cells.
///
/// # Errors
/// Returns `Trie` with the first error in this order:
///
/// - `FromDeserialized` if the number at `type` is not the number of a trie type, if the table has
///   no data, or if a data cell is not the number of a value.
/// - The errors of `CodePointTrie::try_new`.
///
/// Returns `Memory` if an allocation fails.
impl<T: TrieValue> TryFrom<&CodePointTrieToml> for CodePointTrie<'static, T> {
    type Error = TrieFromTomlError;

    #[inline]
    fn try_from(toml: &CodePointTrieToml) -> Result<CodePointTrie<'static, T>, TrieFromTomlError> {
        let header = CodePointTrieHeader::try_from(toml)?;
        let values = typed_data(toml)?;
        trie_with(header, toml.index_slice(), &values)
    }
}

impl core::fmt::Display for TomlError {
    #[inline]
    fn fmt(&self, f: &mut core::fmt::Formatter<'_>) -> core::fmt::Result {
        match self {
            TomlError::Missing(field) => write!(f, "no value at the key `{field}`"),
            TomlError::OutOfRange(field) => write!(
                f,
                "the value at the key `{field}` is of another kind or out of its range"
            ),
            TomlError::Memory => f.write_str("no memory"),
        }
    }
}

impl core::error::Error for TomlError {}

impl core::fmt::Display for TrieFromTomlError {
    #[inline]
    fn fmt(&self, f: &mut core::fmt::Formatter<'_>) -> core::fmt::Result {
        match self {
            TrieFromTomlError::Trie(field) => write!(f, "{field}"),
            TrieFromTomlError::Table(field) => write!(f, "{field}"),
            TrieFromTomlError::Memory => f.write_str("no memory"),
        }
    }
}

impl core::error::Error for TrieFromTomlError {}
