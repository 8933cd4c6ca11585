//! What is wrong with a line, and why there is no trie or no text.

use crate::host::*;
use crate::support::AllocError;
use crate::support::prelude::*;
use bekstaudi::zerovec::MemoryError;
use core::error::Error;
use core::fmt;

/// What is wrong with a line. Lines are tested in this order.
#[derive(Clone, Copy, Debug, PartialEq, Eq)]
pub enum LineError {
    /// The line has no `;`.
    NoSeparator,
    /// There is no key before the last `;`.
    NoKey,
    /// The key is not UTF-8.
    NotUtf8,
    /// There is no value after the last `;`.
    NoValue,
    /// The value is not a decimal number of 32 bits with a sign.
    NotNumber,
    /// The key has more than 65,535 units in UTF-16.
    LongKey,
    /// A line before has the same key.
    Repeated,
}

impl LineError {
    /// Returns what the test that failed expects of a line, in words.
    pub fn expected(self) -> &'static str {
        match self {
            LineError::NoSeparator => "KEY;VALUE",
            LineError::NoKey => "a key before the last `;`",
            LineError::NotUtf8 => "a key in UTF-8",
            LineError::NoValue => "a value after the last `;`",
            LineError::NotNumber => "a value from -2147483648 to 2147483647",
            LineError::LongKey => "a key of at most 65535 units in UTF-16",
            LineError::Repeated => "a key that no line before has",
        }
    }
}

impl fmt::Display for LineError {
    fn fmt(&self, f: &mut fmt::Formatter<'_>) -> fmt::Result {
        let expected = self.expected();
        write!(f, "expected {expected}")
    }
}

impl Error for LineError {}

/// Why a word list is not made into a trie.
#[derive(Clone, Copy, Debug, PartialEq, Eq)]
pub enum WordsError {
    /// The first line that has a fault, counted from 1, and its fault.
    Line(u64, LineError),
    /// The words may need more than `0x7FFF_FFFF` units.
    TooLarge,
    /// An allocation failed.
    Memory,
}

impl fmt::Display for WordsError {
    fn fmt(&self, f: &mut fmt::Formatter<'_>) -> fmt::Result {
        match self {
            WordsError::Line(number, fault) => write!(f, "line {number}: {fault}"),
            WordsError::TooLarge => f.write_str("too large: the words may need too many units"),
            WordsError::Memory => f.write_str("no memory"),
        }
    }
}

impl Error for WordsError {}

/// Why a file of units has no trie.
#[derive(Clone, Copy, Debug, PartialEq, Eq)]
pub enum UnitsError {
    /// The number of bytes is odd.
    HalfUnit,
    /// The units are no trie.
    NotATrie,
    /// An allocation failed.
    Memory,
}

impl fmt::Display for UnitsError {
    fn fmt(&self, f: &mut fmt::Formatter<'_>) -> fmt::Result {
        f.write_str(match self {
            UnitsError::HalfUnit => "expected units of two bytes, found an odd number of bytes",
            UnitsError::NotATrie => "the units are no trie",
            UnitsError::Memory => "no memory",
        })
    }
}

impl Error for UnitsError {}

/// Why the entries of a trie are not written as lines.
#[derive(Debug)]
pub enum RowsError {
    /// No line can have this key: it is empty, has a blank at an end, a line feed, U+FFFD or a lone
    /// surrogate, or starts with `#`.
    Key(String),
    /// An allocation failed.
    Memory,
}

impl fmt::Display for RowsError {
    fn fmt(&self, f: &mut fmt::Formatter<'_>) -> fmt::Result {
        match self {
            RowsError::Key(_) => f.write_str("no line can have a key"),
            RowsError::Memory => f.write_str("no memory"),
        }
    }
}

impl Error for RowsError {}

impl From<AllocError> for RowsError {
    fn from(_error: AllocError) -> RowsError {
        RowsError::Memory
    }
}

impl From<MemoryError> for RowsError {
    fn from(_error: MemoryError) -> RowsError {
        RowsError::Memory
    }
}
