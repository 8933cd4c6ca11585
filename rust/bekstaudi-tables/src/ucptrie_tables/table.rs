//! A trie with the width of its values, and the table of some rows.

use crate::host::*;
use crate::support::prelude::*;
use crate::ucptab_table::input::read_rows;
use crate::ucptrie_tables::error::TableBuildError;
use crate::ucptrie_tables::width::ValueWidth;
use bekstaudi::codepointtrie::CodePointTrie;
use bekstaudi::codepointtrie::TrieType;
use bekstaudi::codepointtrie::Write;
use bekstaudi::codepointtrie::try_build_from_writes;

/// A trie over numbers, and how many bits a value has in a file.
#[derive(Debug)]
pub struct Table {
    pub trie: CodePointTrie<'static, u32>,
    pub width: ValueWidth,
}

/// What a table is to be, apart from its rows.
#[derive(Clone, Copy, Debug)]
pub struct TableOptions {
    /// The type of the trie.
    pub trie_type: TrieType,
    /// How many bits a value has.
    pub width: ValueWidth,
    /// The value of each code point that no row covers.
    pub default: u32,
    /// The value of each number above 0x10FFFF.
    pub error: u32,
}

/// Returns the first value in the trie's data that has more bits.
pub(crate) fn first_wider(trie: &CodePointTrie<'_, u32>, width: ValueWidth) -> Option<u32> {
    let (_, _, values) = trie.parts();
    values.iter().find(|value| !width.fits(*value))
}

/// Builds the table of writes, which apply in order.
///
/// # Errors
/// Returns [`TableBuildError::Table`] for a map that is too large for a trie, and if an allocation
/// fails. Returns [`TableBuildError::Width`] for a value of a code point, or the error value, that has
/// more bits than the asked width: the first one in the trie's data.
pub fn table_of_writes(
    writes: &[Write<u32>],
    options: TableOptions,
) -> Result<Table, TableBuildError> {
    let trie = try_build_from_writes(options.default, options.error, options.trie_type, writes)?;
    match first_wider(&trie, options.width) {
        Some(value) => Err(TableBuildError::Width(value, options.width)),
        None => Ok(Table {
            trie,
            width: options.width,
        }),
    }
}

/// Builds the table of the rows that the bytes have, in `ucptab`'s form.
///
/// # Errors
/// Returns [`TableBuildError::Table`] for the first line that is not a row, for a map that is too large
/// for a trie, and if an allocation fails. Returns [`TableBuildError::Width`] for a value of a code
/// point, or the error value, that has more bits than the asked width: the first one in the trie's
/// data.
pub fn table_of_rows(rows: &[u8], options: TableOptions) -> Result<Table, TableBuildError> {
    let writes = read_rows(rows)?;
    table_of_writes(&writes, options)
}
