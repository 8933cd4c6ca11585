//! Errors for invalid lists, ranges and JSON values.

use crate::icu_zerovec::{MemoryError, PotentialCodePoint};
use crate::support::prelude::*;

/// The list that was rejected because it is not an inversion list: its length is odd, it is not
/// strictly ascending, or it has a number above 0x110000.
#[derive(Debug, PartialEq, Clone, Eq, Hash)]
pub struct InvalidSetError(pub Vec<PotentialCodePoint>);

/// The error of the constructors that take a list of boundaries.
#[derive(Debug, PartialEq, Clone, Eq, Hash)]
#[non_exhaustive]
pub enum SetError {
    /// The list is not an inversion list.
    Invalid(InvalidSetError),
    /// An allocation failed.
    Memory,
}

impl From<MemoryError> for SetError {
    #[inline]
    fn from(_error: MemoryError) -> SetError {
        SetError::Memory
    }
}

/// The inclusive start and the exclusive end of a range that is empty or reversed.
#[derive(Clone, Copy, Debug, PartialEq, Eq, Hash)]
pub struct RangeError(pub u32, pub u32);

/// The error of the conversion from a range to a set.
#[derive(Clone, Copy, Debug, PartialEq, Eq, Hash)]
#[non_exhaustive]
pub enum TryRangeError {
    /// The range is empty or reversed.
    Invalid(RangeError),
    /// An allocation failed.
    Memory,
}

impl From<MemoryError> for TryRangeError {
    #[inline]
    fn from(_error: MemoryError) -> TryRangeError {
        TryRangeError::Memory
    }
}

/// The error of the conversion from JSON to a set.
#[derive(Clone, Copy, Debug, PartialEq, Eq, Hash)]
#[non_exhaustive]
pub enum SetJsonError {
    /// The value is not an array.
    NotAnArray,
    /// The item at this index, counted from 0, is not a string.
    NotAString(usize),
    /// The item at this index, counted from 0, is a string that does not spell a range.
    NotARange(usize),
    /// A range is reversed, or the ranges are not ascending with gaps between them.
    InvalidSet,
    /// An allocation failed.
    Memory,
}

impl From<MemoryError> for SetJsonError {
    #[inline]
    fn from(_error: MemoryError) -> SetJsonError {
        SetJsonError::Memory
    }
}

impl core::fmt::Display for InvalidSetError {
    #[inline]
    fn fmt(&self, f: &mut core::fmt::Formatter<'_>) -> core::fmt::Result {
        match self {
            InvalidSetError(_) => f.write_str("Invalid set"),
        }
    }
}

impl core::error::Error for InvalidSetError {}

impl core::fmt::Display for SetError {
    #[inline]
    fn fmt(&self, f: &mut core::fmt::Formatter<'_>) -> core::fmt::Result {
        match self {
            SetError::Invalid(field) => core::fmt::Display::fmt(field, f),
            SetError::Memory => f.write_str("no memory"),
        }
    }
}

impl core::error::Error for SetError {}

impl From<InvalidSetError> for SetError {
    #[inline]
    fn from(error: InvalidSetError) -> SetError {
        SetError::Invalid(error)
    }
}

impl core::fmt::Display for RangeError {
    #[inline]
    fn fmt(&self, f: &mut core::fmt::Formatter<'_>) -> core::fmt::Result {
        match self {
            RangeError(first, second) => write!(f, "Invalid range: {first}..{second}"),
        }
    }
}

impl core::error::Error for RangeError {}

impl core::fmt::Display for TryRangeError {
    #[inline]
    fn fmt(&self, f: &mut core::fmt::Formatter<'_>) -> core::fmt::Result {
        match self {
            TryRangeError::Invalid(field) => core::fmt::Display::fmt(field, f),
            TryRangeError::Memory => f.write_str("no memory"),
        }
    }
}

impl core::error::Error for TryRangeError {}

impl From<RangeError> for TryRangeError {
    #[inline]
    fn from(error: RangeError) -> TryRangeError {
        TryRangeError::Invalid(error)
    }
}

impl core::fmt::Display for SetJsonError {
    #[inline]
    fn fmt(&self, f: &mut core::fmt::Formatter<'_>) -> core::fmt::Result {
        match self {
            SetJsonError::NotAnArray => f.write_str("no array"),
            SetJsonError::NotAString(field) => write!(f, "item {field} is no string"),
            SetJsonError::NotARange(field) => write!(f, "item {field} is no range"),
            SetJsonError::InvalidSet => f.write_str("the ranges are no set"),
            SetJsonError::Memory => f.write_str("no memory"),
        }
    }
}

impl core::error::Error for SetJsonError {}
