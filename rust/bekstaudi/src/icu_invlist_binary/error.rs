//! Errors of writing and reading the serialized form.

use crate::icu_zerovec::MemoryError;
use crate::support::AllocError;
use crate::support::prelude::*;

/// The error of [`to_serialized`](crate::icu_invlist_binary::serialized::to_serialized).
#[derive(Clone, Copy, Debug, PartialEq, Eq, Hash)]
#[non_exhaustive]
pub enum SerializeError {
    /// The boundaries take more than 0x7FFF units (ICU: `U_INDEX_OUTOFBOUNDS_ERROR`).
    TooLong,
    /// An allocation failed.
    Memory,
}

impl From<AllocError> for SerializeError {
    #[inline]
    fn from(_error: AllocError) -> SerializeError {
        SerializeError::Memory
    }
}

/// The error of [`write_serialized`](crate::icu_invlist_binary::serialized::write_serialized). If both variants apply,
/// the first is returned.
#[derive(Clone, Copy, Debug, PartialEq, Eq, Hash)]
#[non_exhaustive]
pub enum WriteError {
    /// The boundaries take more than 0x7FFF units (ICU: `U_INDEX_OUTOFBOUNDS_ERROR`).
    TooLong,
    /// The slice is shorter than the serialized form (ICU: `U_BUFFER_OVERFLOW_ERROR`).
    Short,
}

/// The error of [`from_serialized`](crate::icu_invlist_binary::serialized::from_serialized). If several variants apply,
/// the first is returned.
#[derive(Clone, Copy, Debug, PartialEq, Eq, Hash)]
#[non_exhaustive]
pub enum SerializedSetError {
    /// There is no unit, or there are fewer units than the first one says.
    Short,
    /// There are fewer units of boundaries than boundaries of one unit, or an odd number of units
    /// is left for boundaries of two units.
    Count,
    /// The boundaries are not strictly ascending, or one is above 0x110000.
    Invalid,
    /// An allocation failed.
    Memory,
}

impl From<MemoryError> for SerializedSetError {
    #[inline]
    fn from(_error: MemoryError) -> SerializedSetError {
        SerializedSetError::Memory
    }
}

impl core::fmt::Display for SerializeError {
    #[inline]
    fn fmt(&self, f: &mut core::fmt::Formatter<'_>) -> core::fmt::Result {
        match self {
            SerializeError::TooLong => f.write_str("the set has too many ends"),
            SerializeError::Memory => f.write_str("no memory"),
        }
    }
}

impl core::error::Error for SerializeError {}

impl core::fmt::Display for WriteError {
    #[inline]
    fn fmt(&self, f: &mut core::fmt::Formatter<'_>) -> core::fmt::Result {
        match self {
            WriteError::TooLong => f.write_str("the set has too many ends"),
            WriteError::Short => f.write_str("the slice is too short"),
        }
    }
}

impl core::error::Error for WriteError {}

impl core::fmt::Display for SerializedSetError {
    #[inline]
    fn fmt(&self, f: &mut core::fmt::Formatter<'_>) -> core::fmt::Result {
        match self {
            SerializedSetError::Short => f.write_str("the set is cut off"),
            SerializedSetError::Count => f.write_str("the counts of the ends do not fit"),
            SerializedSetError::Invalid => f.write_str("the ends are no set"),
            SerializedSetError::Memory => f.write_str("no memory"),
        }
    }
}

impl core::error::Error for SerializedSetError {}
