//! Why there is no set, or why a set is not written.

use crate::host::*;
use crate::support::AllocError;
use crate::support::prelude::*;
use bekstaudi::codepointinvlist::serialized::SerializeError;
use bekstaudi::zerovec::MemoryError;

/// Why a table has no set of the code points with a value.
#[derive(Clone, Copy, Debug, PartialEq, Eq)]
pub enum ValueSetError {
    /// The table's trie is not coherent, so its ranges may differ from its look-ups.
    NotCoherent,
    /// An allocation failed.
    Memory,
}

impl From<MemoryError> for ValueSetError {
    fn from(_error: MemoryError) -> ValueSetError {
        ValueSetError::Memory
    }
}

/// Why a set is not written.
#[derive(Clone, Copy, Debug, PartialEq, Eq)]
pub enum SetWriteError {
    /// ICU's serialized form has no room for the boundaries.
    TooLong,
    /// An allocation failed.
    Memory,
}

impl From<AllocError> for SetWriteError {
    fn from(_error: AllocError) -> SetWriteError {
        SetWriteError::Memory
    }
}

impl From<MemoryError> for SetWriteError {
    fn from(_error: MemoryError) -> SetWriteError {
        SetWriteError::Memory
    }
}

impl From<SerializeError> for SetWriteError {
    fn from(error: SerializeError) -> SetWriteError {
        match error {
            SerializeError::TooLong => SetWriteError::TooLong,
            _ => SetWriteError::Memory,
        }
    }
}

/// Why a TOML file has no set. The first variant that applies is returned.
#[derive(Clone, Copy, Debug, PartialEq, Eq)]
pub enum SetFileError {
    /// The text is not TOML.
    NotToml,
    /// The file has no array `binary_property`.
    NoSets,
    /// No property of the array has the name.
    Missing,
    /// Several properties of the array have the name, or no name is asked and there are several.
    Several,
    /// The property is no table with an array `ranges`.
    NoRanges,
    /// This item of `ranges`, counted from 0, is no array of two numbers up to 10FFFF.
    NotAPair(usize),
    /// The end of this item of `ranges` is below its start.
    Reversed(usize),
    /// An allocation failed.
    Memory,
}

impl From<MemoryError> for SetFileError {
    fn from(_error: MemoryError) -> SetFileError {
        SetFileError::Memory
    }
}

impl core::fmt::Display for ValueSetError {
    fn fmt(&self, f: &mut core::fmt::Formatter<'_>) -> core::fmt::Result {
        match self {
            ValueSetError::NotCoherent => f.write_str(
                "not coherent, so its ranges may differ from its look-ups: it has no sets",
            ),
            ValueSetError::Memory => f.write_str("no memory"),
        }
    }
}

impl core::error::Error for ValueSetError {}

impl core::fmt::Display for SetWriteError {
    fn fmt(&self, f: &mut core::fmt::Formatter<'_>) -> core::fmt::Result {
        match self {
            SetWriteError::TooLong => f.write_str("too many ranges for ICU's serialized form"),
            SetWriteError::Memory => f.write_str("no memory"),
        }
    }
}

impl core::error::Error for SetWriteError {}

impl core::fmt::Display for SetFileError {
    fn fmt(&self, f: &mut core::fmt::Formatter<'_>) -> core::fmt::Result {
        match self {
            SetFileError::NotToml => f.write_str("not TOML"),
            SetFileError::NoSets => f.write_str("no [[binary_property]]"),
            SetFileError::Missing => f.write_str("no such property"),
            SetFileError::Several => f.write_str("several properties"),
            SetFileError::NoRanges => f.write_str("the property has no array `ranges`"),
            SetFileError::NotAPair(field) => write!(f, "ranges[{field}] is no pair of code points"),
            SetFileError::Reversed(field) => write!(f, "ranges[{field}] is reversed"),
            SetFileError::Memory => f.write_str("no memory"),
        }
    }
}

impl core::error::Error for SetFileError {}
