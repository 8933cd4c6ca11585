//! The error of every function that may fail to allocate, and the error of a function that makes a
//! list of changes.

use crate::support::prelude::*;
use crate::support::{AllocError, AllocFailed};

/// An allocation failed. Values passed by reference are unchanged unless the function says
/// otherwise.
#[derive(Clone, Copy, Debug, PartialEq, Eq, Hash)]
pub struct MemoryError;

/// Converts the error of an allocation, so that `?` works.
impl From<AllocError> for MemoryError {
    #[inline]
    fn from(_error: AllocError) -> MemoryError {
        MemoryError
    }
}

/// Converts the error of a function such as `Vec::push`, which returns the value that did not fit.
/// The value is dropped.
impl<T> From<AllocFailed<T>> for MemoryError {
    #[inline]
    fn from(_failed: AllocFailed<T>) -> MemoryError {
        MemoryError
    }
}

/// An allocation failed for the write at this index of a list, counted from 0. All writes before it
/// were made, and no others.
///
/// It is defined here, next to [`MemoryError`], so that `?` converts it in every function that
/// returns `MemoryError`.
#[derive(Clone, Copy, Debug, PartialEq, Eq, Hash)]
pub struct ApplyRefused(pub usize);

/// Converts the error and drops the index.
impl From<ApplyRefused> for MemoryError {
    #[inline]
    fn from(_refused: ApplyRefused) -> MemoryError {
        MemoryError
    }
}

impl core::fmt::Display for MemoryError {
    #[inline]
    fn fmt(&self, f: &mut core::fmt::Formatter<'_>) -> core::fmt::Result {
        match self {
            MemoryError => f.write_str("no memory"),
        }
    }
}

impl core::error::Error for MemoryError {}

impl core::fmt::Display for ApplyRefused {
    #[inline]
    fn fmt(&self, f: &mut core::fmt::Formatter<'_>) -> core::fmt::Result {
        match self {
            ApplyRefused(field) => write!(f, "no memory for write {field}"),
        }
    }
}

impl core::error::Error for ApplyRefused {}
