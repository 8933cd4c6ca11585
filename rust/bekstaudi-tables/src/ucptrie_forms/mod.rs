//! The tables of the program `ucptrie` in the forms that other programs read.
//!
//! - `written`: a table in one of the forms, as the bytes of a file
//! - `stated`: the null value and the error value in comments among rows
//! - `c_source` and `rust_source` write source; `bks_source` writes C for `bekstaudi.h`; `header`:
//!   what it says of the trie; `cells`: the cells of a trie as numbers in a text
//! - `toml_text`: a table in TOML

use crate::host::*;
use crate::support::prelude::*;
mod bks_source;
mod c_source;
mod cells;
mod header;
mod rust_source;
pub mod stated;
mod toml_text;
pub mod written;

use crate::ucptrie_forms::written::written;
use crate::ucptrie_tables::error::TableBuildError;
use crate::ucptrie_tables::form::Form;
use crate::ucptrie_tables::table::{TableOptions, table_of_rows};

/// Builds the table of the rows, and returns it in a form, as the bytes of a file.
///
/// In the form `Rows` this is the text that `ucptab` prints if no number is asked, after comments
/// that state the null value and the error value.
///
/// # Errors
/// Returns [`TableBuildError::Table`] for the first line that is not a row, for a map that is too large
/// for a trie, and if an allocation fails. Returns [`TableBuildError::Width`] for a value of a code
/// point, or the error value, that has more bits than the asked width; in ICU's binary form also
/// for the null value. Returns [`TableBuildError::Binary`] if ICU's binary form has no room for the
/// trie.
pub fn built(
    rows: &[u8],
    options: TableOptions,
    form: Form<'_>,
) -> Result<Vec<u8>, TableBuildError> {
    let table = table_of_rows(rows, options)?;
    written(&table, form)
}
