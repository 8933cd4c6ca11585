//! Why a trie could not be built.

use crate::icu_zerovec::MemoryError;
use crate::icu_zerovec::memory::ApplyRefused;
use crate::support::prelude::*;
use crate::support::{AllocError, AllocFailed};

/// The reasons why a trie could not be built.
#[derive(Clone, Copy, Debug, PartialEq, Eq, Hash)]
#[non_exhaustive]
pub enum BuildError {
    /// The map has so many different blocks that an offset does not fit its cell.
    TooLarge,
    /// An allocation failed.
    Memory,
}

impl From<AllocError> for BuildError {
    #[inline]
    fn from(_error: AllocError) -> BuildError {
        BuildError::Memory
    }
}

impl<T> From<AllocFailed<T>> for BuildError {
    #[inline]
    fn from(_error: AllocFailed<T>) -> BuildError {
        BuildError::Memory
    }
}

impl From<MemoryError> for BuildError {
    #[inline]
    fn from(_error: MemoryError) -> BuildError {
        BuildError::Memory
    }
}

impl From<ApplyRefused> for BuildError {
    #[inline]
    fn from(_error: ApplyRefused) -> BuildError {
        BuildError::Memory
    }
}

impl core::fmt::Display for BuildError {
    #[inline]
    fn fmt(&self, f: &mut core::fmt::Formatter<'_>) -> core::fmt::Result {
        match self {
            BuildError::TooLarge => f.write_str("too large"),
            BuildError::Memory => f.write_str("no memory"),
        }
    }
}

impl core::error::Error for BuildError {}
