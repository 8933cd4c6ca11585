//! A set as the bytes of a file.

use crate::host::*;
use crate::support::prelude::*;
use crate::ucptrie_sets::c_source::{c_text, frozen_c_text};
use crate::ucptrie_sets::error::SetWriteError;
use crate::ucptrie_sets::rows::rows_text;
use crate::ucptrie_sets::rust_source::{frozen_rust_text, rust_text};
use crate::ucptrie_sets::serialized::serialized_bytes;
use crate::ucptrie_sets::static_source::static_text;
use crate::ucptrie_sets::toml_text::toml_text;
use bekstaudi::codepointinvlist::CodePointInversionList;
use bekstaudi::zerovec::MemoryError;

/// The forms in which a set is written.
#[derive(Clone, Copy, Debug, PartialEq, Eq)]
pub enum SetForm<'a> {
    /// The rows of `ucptab`: a line with the value 1 for each range.
    Rows,
    /// ICU's serialized form, which `uset_getSerializedSet` reads, with the low byte of each unit
    /// first.
    Icu,
    /// JSON, as the Rust crate has it.
    Json,
    /// TOML, as ICU's icuexportdata writes it: a property with this name.
    Toml(&'a str),
    /// Source in C: the boundaries and a search in them. Each of its names starts with this one.
    C(&'a str),
    /// Source in Rust: a module of this name with the boundaries and a search in them.
    Rust(&'a str),
    /// Source in Rust: a static set of the crate `bekstaudi`, whose name is this one in capitals.
    RustStatic(&'a str),
    /// Source in C: the words of a frozen set. Each of its names starts with this one.
    FrozenC(&'a str),
    /// Source in Rust: a module of this name with the tables of a frozen set.
    FrozenRust(&'a str),
}

/// Returns the set in JSON, in one line.
fn json_text(set: &CodePointInversionList<'_>) -> Result<String, MemoryError> {
    let mut text = set.to_json()?.to_string();
    text.try_push('\n')?;
    Ok(text)
}

/// Returns the set in a form, as the bytes of a file.
///
/// # Errors
/// - `SetWriteError::TooLong` in ICU's serialized form, if and only if the boundaries take more
///   than 0x7FFF units.
/// - `SetWriteError::Memory` if an allocation fails.
pub fn written(
    set: &CodePointInversionList<'_>,
    form: SetForm<'_>,
) -> Result<Vec<u8>, SetWriteError> {
    let text = match form {
        SetForm::Icu => return serialized_bytes(set),
        SetForm::Rows => rows_text(set)?,
        SetForm::Json => json_text(set)?,
        SetForm::Toml(name) => toml_text(set, name)?,
        SetForm::C(name) => c_text(set, name)?,
        SetForm::Rust(name) => rust_text(set, name)?,
        SetForm::RustStatic(name) => static_text(set, name)?,
        SetForm::FrozenC(name) => frozen_c_text(set, name)?,
        SetForm::FrozenRust(name) => frozen_rust_text(set, name)?,
    };
    Ok(text.into_bytes())
}
