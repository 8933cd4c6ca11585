//! A trie as the bytes of a file.

use crate::host::*;
use crate::support::AllocError;
use crate::support::prelude::*;
use crate::ucptrie_words::error::RowsError;
use crate::ucptrie_words::rows::rows_text;
use crate::ucptrie_words::source::{c_text, rust_text};
use crate::ucptrie_words::static_source::static_text;
use bekstaudi::char16trie::Char16Trie;

/// The forms in which a trie is written.
#[derive(Clone, Copy, Debug, PartialEq, Eq)]
pub enum Form<'a> {
    /// The units, two bytes each, the low byte first.
    Icu,
    /// Source in C: an array whose name starts with this one.
    C(&'a str),
    /// Source in Rust: a module of this name.
    Rust(&'a str),
    /// Source in Rust: a static trie of the crate `bekstaudi`, whose name is this one in capitals.
    RustStatic(&'a str),
    /// The lines `KEY;VALUE` of the entries, in unit order of the keys.
    Rows,
}

/// Returns the units of a trie, two bytes each, the low byte first.
fn units_bytes(trie: &Char16Trie<'_>) -> Result<Vec<u8>, AllocError> {
    Vec::from_slice(trie.data.as_bytes())
}

/// Returns a trie in a form, as the bytes of a file.
///
/// # Errors
/// Returns [`RowsError::Key`] in the form [`Form::Rows`] for the first key that no line can have.
/// Returns [`RowsError::Memory`] if an allocation fails.
pub fn written(trie: &Char16Trie<'_>, form: Form<'_>) -> Result<Vec<u8>, RowsError> {
    let text = match form {
        Form::Icu => return Ok(units_bytes(trie)?),
        Form::C(name) => c_text(trie.data.as_slice(), name)?,
        Form::Rust(name) => rust_text(trie.data.as_slice(), name)?,
        Form::RustStatic(name) => static_text(trie.data.as_bytes(), name)?,
        Form::Rows => rows_text(trie)?,
    };
    Ok(text.into_bytes())
}
