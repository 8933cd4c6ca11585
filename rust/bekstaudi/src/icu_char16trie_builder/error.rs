//! Why an entry was rejected, or a trie could not be built.

use crate::icu_zerovec::MemoryError;
use crate::support::prelude::*;
use crate::support::{AllocError, AllocFailed};

/// Why an entry was rejected. The entries are then unchanged.
#[derive(Clone, Copy, Debug, PartialEq, Eq, Hash)]
#[non_exhaustive]
pub enum AddError {
    /// The key has more than 65,535 units.
    KeyTooLong,
    /// There is already an entry with this key.
    Duplicate,
    /// An allocation failed.
    Memory,
}

impl From<MemoryError> for AddError {
    #[inline]
    fn from(_error: MemoryError) -> AddError {
        AddError::Memory
    }
}

/// Why a trie could not be built.
#[derive(Clone, Copy, Debug, PartialEq, Eq, Hash)]
#[non_exhaustive]
pub enum BuildError {
    /// The entries may need more than `0x7FFF_FFFF` units.
    TooLarge,
    /// An entry was rejected. The builder never returns this: it is for `?` in a function that both
    /// adds entries and builds.
    Entry(AddError),
    /// An allocation failed.
    Memory,
}

impl From<AllocError> for BuildError {
    #[inline]
    fn from(_error: AllocError) -> BuildError {
        BuildError::Memory
    }
}

impl<T> From<AllocFailed<T>> for BuildError {
    #[inline]
    fn from(_error: AllocFailed<T>) -> BuildError {
        BuildError::Memory
    }
}

impl From<MemoryError> for BuildError {
    #[inline]
    fn from(_error: MemoryError) -> BuildError {
        BuildError::Memory
    }
}

/// For `?` after adding an entry. `Memory` stays `Memory`.
impl From<AddError> for BuildError {
    #[inline]
    fn from(error: AddError) -> BuildError {
        match error {
            AddError::Memory => BuildError::Memory,
            AddError::KeyTooLong | AddError::Duplicate => BuildError::Entry(error),
        }
    }
}

/// Why no trie was built from a slice of entries. An index is that of an entry in the slice.
#[derive(Clone, Copy, Debug, PartialEq, Eq, Hash)]
#[non_exhaustive]
pub enum SortedError {
    /// The key at this index has more than 65,535 units. It is the first entry that is not valid.
    KeyTooLong(usize),
    /// The key at this index is not greater than the one before. It is the first entry that is not
    /// valid.
    NotAscending(usize),
    /// The entries may need more than `0x7FFF_FFFF` units.
    TooLarge,
    /// An allocation failed.
    Memory,
}

impl From<AllocError> for SortedError {
    #[inline]
    fn from(_error: AllocError) -> SortedError {
        SortedError::Memory
    }
}

impl<T> From<AllocFailed<T>> for SortedError {
    #[inline]
    fn from(_error: AllocFailed<T>) -> SortedError {
        SortedError::Memory
    }
}

impl From<MemoryError> for SortedError {
    #[inline]
    fn from(_error: MemoryError) -> SortedError {
        SortedError::Memory
    }
}

impl core::fmt::Display for AddError {
    #[inline]
    fn fmt(&self, f: &mut core::fmt::Formatter<'_>) -> core::fmt::Result {
        match self {
            AddError::KeyTooLong => f.write_str("key too long"),
            AddError::Duplicate => f.write_str("duplicate key"),
            AddError::Memory => f.write_str("no memory"),
        }
    }
}

impl core::error::Error for AddError {}

impl core::fmt::Display for BuildError {
    #[inline]
    fn fmt(&self, f: &mut core::fmt::Formatter<'_>) -> core::fmt::Result {
        match self {
            BuildError::TooLarge => f.write_str("too large"),
            BuildError::Entry(field) => write!(f, "{field}"),
            BuildError::Memory => f.write_str("no memory"),
        }
    }
}

impl core::error::Error for BuildError {}

impl core::fmt::Display for SortedError {
    #[inline]
    fn fmt(&self, f: &mut core::fmt::Formatter<'_>) -> core::fmt::Result {
        match self {
            SortedError::KeyTooLong(field) => write!(f, "key {field} too long"),
            SortedError::NotAscending(field) => write!(f, "key {field} not ascending"),
            SortedError::TooLarge => f.write_str("too large"),
            SortedError::Memory => f.write_str("no memory"),
        }
    }
}

impl core::error::Error for SortedError {}
