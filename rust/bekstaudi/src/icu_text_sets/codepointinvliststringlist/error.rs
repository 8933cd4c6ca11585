//! Errors for invalid lists of strings and JSON values.

use crate::icu_invlist::codepointinvlist::SetJsonError;
use crate::icu_zerovec::MemoryError;
use crate::support::prelude::*;

/// The error for a list that cannot be the strings of a set. Each variant contains the strings at
/// fault.
#[derive(Debug, PartialEq, Clone, Eq, Hash)]
pub enum InvalidStringList {
    /// The string has exactly one code point, so it belongs among the code points.
    InvalidStringLength(String),
    /// The next string is equal to this one.
    StringListNotUnique(String),
    /// The second string follows the first but is less than it, compared by bytes.
    StringListNotSorted(String, String),
}

/// The error of the conversion from JSON to a set.
#[derive(Debug, PartialEq, Clone, Eq, Hash)]
#[non_exhaustive]
pub enum StringListJsonError {
    /// The value is not an object, if the text is empty. Otherwise the object does not have this
    /// key, or the value at `str_list` is not an array.
    Shape(&'static str),
    /// The value at `cp_inv_list` is not a set of code points.
    Set(SetJsonError),
    /// The item of `str_list` at this index, counted from 0, is not a string.
    NotAString(usize),
    /// The strings cannot be the strings of a set.
    Strings(InvalidStringList),
    /// An allocation failed.
    Memory,
}

/// Converts the error of a set of code points, so that `?` works. A failed allocation becomes
/// `Memory`.
impl From<SetJsonError> for StringListJsonError {
    #[inline]
    fn from(error: SetJsonError) -> StringListJsonError {
        match error {
            SetJsonError::Memory => StringListJsonError::Memory,
            error => StringListJsonError::Set(error),
        }
    }
}

impl From<MemoryError> for StringListJsonError {
    #[inline]
    fn from(_error: MemoryError) -> StringListJsonError {
        StringListJsonError::Memory
    }
}

impl core::fmt::Display for InvalidStringList {
    #[inline]
    fn fmt(&self, f: &mut core::fmt::Formatter<'_>) -> core::fmt::Result {
        match self {
            InvalidStringList::InvalidStringLength(field) => {
                write!(f, "Invalid string length for string: {field}")
            }
            InvalidStringList::StringListNotUnique(field) => {
                write!(f, "String list has duplicate: {field}")
            }
            InvalidStringList::StringListNotSorted(first, second) => write!(
                f,
                "Strings in string list not in sorted order: ({first}, {second})"
            ),
        }
    }
}

impl core::error::Error for InvalidStringList {}

impl core::fmt::Display for StringListJsonError {
    #[inline]
    fn fmt(&self, f: &mut core::fmt::Formatter<'_>) -> core::fmt::Result {
        match self {
            StringListJsonError::Shape(field) => write!(
                f,
                "no object with arrays `cp_inv_list` and `str_list`, at the key `{field}`"
            ),
            StringListJsonError::Set(field) => write!(f, "code points: {field}"),
            StringListJsonError::NotAString(field) => {
                write!(f, "item {field} of the strings is no string")
            }
            StringListJsonError::Strings(field) => core::fmt::Display::fmt(field, f),
            StringListJsonError::Memory => f.write_str("no memory"),
        }
    }
}

impl core::error::Error for StringListJsonError {}

impl From<InvalidStringList> for StringListJsonError {
    #[inline]
    fn from(error: InvalidStringList) -> StringListJsonError {
        StringListJsonError::Strings(error)
    }
}
