//! Why the parts of a trie are rejected, and why a trie cannot be converted to another type.

pub use crate::icu_trie_core::error::CodePointTrieError;
use crate::icu_zerovec::MemoryError;
use crate::support::prelude::*;

/// The error of a function that makes a trie of copied parts.
#[derive(Clone, Copy, Debug, PartialEq, Eq, Hash)]
#[non_exhaustive]
pub enum PartsError {
    /// The parts do not form a trie.
    Trie(CodePointTrieError),
    /// An allocation failed.
    Memory,
}

impl From<CodePointTrieError> for PartsError {
    #[inline]
    fn from(error: CodePointTrieError) -> PartsError {
        PartsError::Trie(error)
    }
}

impl From<MemoryError> for PartsError {
    #[inline]
    fn from(_error: MemoryError) -> PartsError {
        PartsError::Memory
    }
}

/// The reasons why a trie cannot be read as a trie of another type.
#[derive(Clone, Copy, Debug, PartialEq, Eq, Hash)]
#[non_exhaustive]
pub enum ConvertError {
    /// Values of the two types take different numbers of bytes.
    Width,
    /// The first data cell, at this position, that is not a value of the other type.
    Cell(usize),
    /// The null value is not a value of the other type. The error value is a cell, so it is
    /// reported as `Cell`.
    ErrorOrNull,
}

impl core::fmt::Display for PartsError {
    #[inline]
    fn fmt(&self, f: &mut core::fmt::Formatter<'_>) -> core::fmt::Result {
        match self {
            PartsError::Trie(field) => write!(f, "{field}"),
            PartsError::Memory => f.write_str("no memory"),
        }
    }
}

impl core::error::Error for PartsError {}

impl core::fmt::Display for ConvertError {
    #[inline]
    fn fmt(&self, f: &mut core::fmt::Formatter<'_>) -> core::fmt::Result {
        match self {
            ConvertError::Width => f.write_str("the values of the two types have different widths"),
            ConvertError::Cell(field) => write!(f, "cell {field} is no value of the other type"),
            ConvertError::ErrorOrNull => {
                f.write_str("the error value or the null value is no value of the other type")
            }
        }
    }
}

impl core::error::Error for ConvertError {}
