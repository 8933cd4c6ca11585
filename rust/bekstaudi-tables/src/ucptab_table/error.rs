//! Why the program fails, and the line that says so.

use crate::host::*;
use crate::support::AllocError;
use crate::support::prelude::*;
use bekstaudi::codepointtrie::BuildError;
use core::error::Error;
use core::fmt;

/// What is wrong with a row. Rows are tested in this order.
#[derive(Clone, Copy, Debug, PartialEq, Eq)]
pub enum RowError {
    /// The line has neither the form `HEX;N` nor the form `HEX..HEX;N`.
    NotARow,
    /// A code point is above 10FFFF.
    CodePoint,
    /// The end of the range is below its start.
    Reversed,
    /// The value is above 4294967295.
    Value,
}

impl RowError {
    /// Returns what is wrong, in words.
    pub fn text(self) -> &'static str {
        match self {
            RowError::NotARow => "not a row",
            RowError::CodePoint => "code point too large",
            RowError::Reversed => "range reversed",
            RowError::Value => "value too large",
        }
    }

    /// Returns what the test that failed expects of a row, in words.
    pub fn expected(self) -> &'static str {
        match self {
            RowError::NotARow => "HEX;VALUE or HEX..HEX;VALUE",
            RowError::CodePoint => "code points up to 10FFFF",
            RowError::Reversed => "a range whose end is not below its start",
            RowError::Value => "a value up to 4294967295",
        }
    }
}

impl fmt::Display for RowError {
    fn fmt(&self, f: &mut fmt::Formatter<'_>) -> fmt::Result {
        f.write_str(self.text())
    }
}

impl Error for RowError {}

/// Why the program fails.
#[derive(Clone, Copy, Debug, PartialEq, Eq)]
pub enum TableError {
    /// The first line that is not a row, counted from 1, and what is wrong with it.
    Row(u64, RowError),
    /// The map is too large for a trie.
    TooLarge,
    /// An allocation failed.
    Memory,
    /// The input can't be read.
    Read,
    /// The output can't be written.
    Write,
}

impl fmt::Display for TableError {
    fn fmt(&self, f: &mut fmt::Formatter<'_>) -> fmt::Result {
        match self {
            TableError::Row(number, fault) => write!(f, "line {number}: {fault}"),
            TableError::TooLarge => f.write_str("too large"),
            TableError::Memory => f.write_str("no memory"),
            TableError::Read => f.write_str("read fault"),
            TableError::Write => f.write_str("write fault"),
        }
    }
}

impl Error for TableError {}

impl From<BuildError> for TableError {
    fn from(error: BuildError) -> TableError {
        match error {
            BuildError::TooLarge => TableError::TooLarge,
            _ => TableError::Memory,
        }
    }
}

impl From<AllocError> for TableError {
    fn from(_e: AllocError) -> TableError {
        TableError::Memory
    }
}
