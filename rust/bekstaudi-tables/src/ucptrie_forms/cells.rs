//! The cells of a trie as numbers in a text.

use crate::host::*;
use crate::support::AllocError;
use crate::support::prelude::*;
use crate::ucptab_table::pattern::push_cell;
use crate::ucptrie_tables::table::Table;
use bekstaudi::codepointtrie::TrieValue;
use bekstaudi::zerovec::ZeroSlice;

/// Appends the cells' numbers, sixteen to a line. Every line but the first starts with the indent
/// (usrc_writeArray).
fn push_cells<T: TrieValue>(
    text: &mut String,
    cells: ZeroSlice<'_, T>,
    indent: &str,
) -> Result<(), AllocError> {
    for (i, cell) in cells.iter().enumerate() {
        push_cell(text, i, cell.to_u32(), indent)?;
    }
    Ok(())
}

/// Appends the cells of a table's index.
pub(crate) fn push_index(text: &mut String, table: &Table, indent: &str) -> Result<(), AllocError> {
    let (_, index, _) = table.trie.parts();
    push_cells(text, index, indent)
}

/// Appends the cells of a table's data.
pub(crate) fn push_data(text: &mut String, table: &Table, indent: &str) -> Result<(), AllocError> {
    let (_, _, values) = table.trie.parts();
    push_cells(text, values, indent)
}
