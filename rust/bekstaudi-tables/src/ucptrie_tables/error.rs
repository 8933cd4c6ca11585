//! Why a table can't be made of rows, or written.

use crate::host::*;
use crate::support::AllocError;
use crate::support::prelude::*;
use crate::ucptab_table::error::TableError;
use crate::ucptrie_tables::width::ValueWidth;
use bekstaudi::codepointtrie::BuildError;
use bekstaudi::codepointtrie::binary::WriteError;
use bekstaudi::zerovec::MemoryError;

/// Why rows make no table, or why a table is not written.
#[derive(Clone, Copy, Debug, PartialEq, Eq)]
pub enum TableBuildError {
    /// A row has a fault, the map is too large for a trie, or an allocation failed.
    Table(TableError),
    /// A value of a code point, or the error value, that has more bits than this width. From
    /// `ucptrie_forms::written` it may also be the null value.
    Width(u32, ValueWidth),
    /// ICU's binary form has no room for the trie.
    Binary(WriteError),
}

impl From<TableError> for TableBuildError {
    fn from(fault: TableError) -> TableBuildError {
        TableBuildError::Table(fault)
    }
}

impl From<BuildError> for TableBuildError {
    fn from(error: BuildError) -> TableBuildError {
        TableBuildError::Table(TableError::from(error))
    }
}

impl From<WriteError> for TableBuildError {
    fn from(error: WriteError) -> TableBuildError {
        match error {
            WriteError::Memory => TableBuildError::Table(TableError::Memory),
            _ => TableBuildError::Binary(error),
        }
    }
}

impl From<AllocError> for TableBuildError {
    fn from(_error: AllocError) -> TableBuildError {
        TableBuildError::Table(TableError::Memory)
    }
}

impl From<MemoryError> for TableBuildError {
    fn from(_error: MemoryError) -> TableBuildError {
        TableBuildError::Table(TableError::Memory)
    }
}

impl core::fmt::Display for TableBuildError {
    fn fmt(&self, f: &mut core::fmt::Formatter<'_>) -> core::fmt::Result {
        match self {
            TableBuildError::Table(field) => write!(f, "{field}"),
            TableBuildError::Width(first, second) => {
                write!(f, "value {first} has more than {second}")
            }
            TableBuildError::Binary(field) => write!(f, "{field}"),
        }
    }
}

impl core::error::Error for TableBuildError {}
