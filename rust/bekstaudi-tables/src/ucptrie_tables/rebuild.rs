//! The same values in a trie of another type, with another width or another error value.

use crate::host::*;
use crate::support::prelude::*;
use crate::ucptrie_tables::error::TableBuildError;
use crate::ucptrie_tables::table::{Table, first_wider};
use crate::ucptrie_tables::width::ValueWidth;
use bekstaudi::codepointtrie::CodePointTrie;
use bekstaudi::codepointtrie::CodePointTrieBuilder;
use bekstaudi::codepointtrie::TrieType;
use bekstaudi::zerovec::{CODE_POINT_LIMIT, MemoryError};

/// Sets the value of each code point to that of another map.
fn copy_values(
    from: &CodePointTrieBuilder<u32>,
    to: &mut CodePointTrieBuilder<u32>,
) -> Result<(), MemoryError> {
    let mut next = 0;
    while let Some(run) = from.get_range(next) {
        next = *run.range.end() + 1;
        to.try_set_range_value(run.range, run.value)?;
    }
    Ok(())
}

/// Returns a builder of this type and error value that has the value of each code point in a trie.
/// Its default is the value of U+10FFFF.
fn copied(
    trie: &CodePointTrie<'_, u32>,
    trie_type: TrieType,
    error: u32,
) -> Result<CodePointTrieBuilder<u32>, MemoryError> {
    let values = CodePointTrieBuilder::try_from_trie(trie)?;
    let default = trie.get32(CODE_POINT_LIMIT - 1);
    let mut builder = CodePointTrieBuilder::new(default, error, trie_type);
    copy_values(&values, &mut builder)?;
    Ok(builder)
}

/// Builds a table with the value of each code point in another table, which need not be coherent.
/// Its type, its width and its error value are the given ones. Its null value is that of the null
/// block, or the value of U+10FFFF if there is none.
///
/// # Errors
/// Returns [`TableBuildError::Width`] for a value of a code point, or the error value, that has more
/// bits than the width: the first one in the new trie's data. Returns [`TableBuildError::Table`] if the
/// values are too many for a trie, and if an allocation fails.
pub fn rebuilt(
    table: &Table,
    trie_type: TrieType,
    width: ValueWidth,
    error: u32,
) -> Result<Table, TableBuildError> {
    let builder = copied(&table.trie, trie_type, error)?;
    let trie = builder.try_build()?;
    match first_wider(&trie, width) {
        Some(value) => Err(TableBuildError::Width(value, width)),
        None => Ok(Table { trie, width }),
    }
}
