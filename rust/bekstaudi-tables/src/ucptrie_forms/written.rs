//! A table as the bytes of a file.

use crate::host::*;
use crate::support::prelude::*;
use crate::ucptab_table::error::TableError;
use crate::ucptrie_forms::bks_source::bks_source;
use crate::ucptrie_forms::c_source::c_text;
use crate::ucptrie_forms::rust_source::rust_text;
use crate::ucptrie_forms::stated::rows_text;
use crate::ucptrie_forms::toml_text::toml_text;
use crate::ucptrie_tables::error::TableBuildError;
use crate::ucptrie_tables::form::Form;
use crate::ucptrie_tables::table::Table;
use crate::ucptrie_tables::values::with_values_of;
use crate::ucptrie_tables::width::ValueWidth;
use bekstaudi::codepointtrie::CodePointTrie;
use bekstaudi::codepointtrie::MapError;
use bekstaudi::codepointtrie::TrieValue;
use bekstaudi::codepointtrie::binary::to_binary;
use bekstaudi::codepointtrie::json::to_json;
use bekstaudi::zerovec::MemoryError;

/// Returns the table in ICU's binary form with values of another type.
fn binary_over<P: TrieValue>(table: &Table) -> Result<Vec<u8>, TableBuildError> {
    let narrowed: CodePointTrie<'static, P> = match with_values_of(&table.trie) {
        Ok(narrowed) => narrowed,
        Err(MapError::Closure(value)) => return Err(TableBuildError::Width(value, table.width)),
        Err(_) => return Err(TableBuildError::Table(TableError::Memory)),
    };
    Ok(to_binary(&narrowed)?)
}

/// Returns the table in ICU's binary form with values of its width.
fn binary(table: &Table) -> Result<Vec<u8>, TableBuildError> {
    match table.width {
        ValueWidth::Bits8 => binary_over::<u8>(table),
        ValueWidth::Bits16 => binary_over::<u16>(table),
        ValueWidth::Bits32 => Ok(to_binary(&table.trie)?),
    }
}

/// Returns the table in C for `bekstaudi.h`.
fn bks_text(table: &Table, name: &str) -> Result<String, TableBuildError> {
    let bytes = binary(table)?;
    Ok(bks_source(table, &bytes, name)?)
}

/// Returns the table in JSON, in one line.
fn json_text(table: &Table) -> Result<String, MemoryError> {
    let mut text = to_json(&table.trie)?.to_string();
    text.try_push('\n')?;
    Ok(text)
}

/// Returns the table in a form, as the bytes of a file.
///
/// # Errors
/// Returns [`TableBuildError::Width`] in ICU's binary form, in a file or in C, for the first value that has more bits than
/// the table's width: the error value, the null value, or a cell of the data, in this order.
/// Returns [`TableBuildError::Binary`] if ICU's binary form has no room for the trie. Returns
/// [`TableBuildError::Table`] if an allocation fails.
pub fn written(table: &Table, form: Form<'_>) -> Result<Vec<u8>, TableBuildError> {
    let text = match form {
        Form::Icu => return binary(table),
        Form::Toml => toml_text(table)?,
        Form::Json => json_text(table)?,
        Form::C(name) => c_text(table, name)?,
        Form::Bks(name) => bks_text(table, name)?,
        Form::Rust(name) => rust_text(table, name)?,
        Form::Rows => rows_text(&table.trie)?,
    };
    Ok(text.into_bytes())
}
