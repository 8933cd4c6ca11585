//! A table in TOML, as ICU's usrc_writeUCPTrie writes it.

use crate::host::*;
use crate::support::AllocError;
use crate::support::prelude::*;
use crate::ucptab_table::pattern::Number::Decimal;
use crate::ucptab_table::pattern::push_pattern;
use crate::ucptrie_forms::cells::{push_data, push_index};
use crate::ucptrie_forms::header::header_numbers;
use crate::ucptrie_tables::table::Table;

/// What follows the data: the numbers of the header.
const HEADER: &str = "
]
indexLength = %
dataLength = %
highStart = %
shifted12HighStart = %
type = %
valueWidth = %
index3NullOffset = %
dataNullOffset = %
nullValue = %
";

/// Appends the array of the index.
fn push_index_array(text: &mut String, table: &Table) -> Result<(), AllocError> {
    text.try_push_str("index = [\n  ")?;
    push_index(text, table, "  ")
}

/// Appends the array of the data, up to the end of its cells.
fn push_data_array(text: &mut String, table: &Table) -> Result<(), AllocError> {
    let bits = [Decimal(table.width.bits() as usize)];
    push_pattern(text, "\n]\ndata_% = [\n  ", "", &bits)?;
    push_data(text, table, "  ")
}

/// Appends what follows the data.
fn push_header(text: &mut String, table: &Table) -> Result<(), AllocError> {
    push_pattern(text, HEADER, "", &header_numbers(table))
}

/// Returns the table in TOML.
pub(crate) fn toml_text(table: &Table) -> Result<String, AllocError> {
    let mut text = String::new();
    push_index_array(&mut text, table)?;
    push_data_array(&mut text, table)?;
    push_header(&mut text, table)?;
    Ok(text)
}
