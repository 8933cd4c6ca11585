//! The table that a file has.

use crate::host::*;
use crate::serde_json::Value;
use crate::support::prelude::*;
use crate::ucptrie_readers::error::{ReadError, TomlFileError};
use crate::ucptrie_tables::table::Table;
use crate::ucptrie_tables::values::with_values_of;
use crate::ucptrie_tables::width::ValueWidth;
use bekstaudi::codepointtrie::CodePointTrie;
use bekstaudi::codepointtrie::MapError;
use bekstaudi::codepointtrie::TrieValue;
use bekstaudi::codepointtrie::binary::{
    AnyWidthTrie, BinaryError, SwappedError, from_binary_any, from_binary_swapped,
};
use bekstaudi::codepointtrie::json::from_json;
use bekstaudi::codepointtrie::trie_toml::{CodePointDataSlice, CodePointTrieToml};

/// Returns the table of a trie over values of a narrower type.
fn widened<T: TrieValue>(
    trie: &CodePointTrie<'_, T>,
    width: ValueWidth,
) -> Result<Table, ReadError> {
    match with_values_of(trie) {
        Ok(trie) => Ok(Table { trie, width }),
        // The number of each value has at most 32 bits.
        Err(MapError::Closure(_)) => unreachable!(),
        Err(_) => Err(ReadError::Memory),
    }
}

/// Reads a table in ICU's binary form.
fn table_of_binary(file: &[u8]) -> Result<Table, ReadError> {
    let (read, _) = from_binary_any(file)?;
    match read {
        AnyWidthTrie::Bits8(trie) => widened(&trie, ValueWidth::Bits8),
        AnyWidthTrie::Bits16(trie) => widened(&trie, ValueWidth::Bits16),
        AnyWidthTrie::Bits32(trie) => widened(&trie, ValueWidth::Bits32),
    }
}

/// Reads a table in ICU's binary form as a machine with the other byte order writes it. Tries each
/// width in turn.
fn table_of_swapped(file: &[u8]) -> Result<Table, ReadError> {
    match from_binary_swapped::<u8>(file) {
        Ok((trie, _)) => return widened(&trie, ValueWidth::Bits8),
        Err(SwappedError::Binary(BinaryError::OtherWidth)) => {}
        Err(error) => return Err(ReadError::from(error)),
    }
    match from_binary_swapped::<u16>(file) {
        Ok((trie, _)) => return widened(&trie, ValueWidth::Bits16),
        Err(SwappedError::Binary(BinaryError::OtherWidth)) => {}
        Err(error) => return Err(ReadError::from(error)),
    }
    let (trie, _) = from_binary_swapped::<u32>(file)?;
    Ok(Table {
        trie,
        width: ValueWidth::Bits32,
    })
}

/// Reads a table in JSON, which has no width: its numbers have 32 bits.
fn table_of_json(text: &str) -> Result<Table, ReadError> {
    let value = crate::serde_json::from_str::<Value>(text)?;
    Ok(Table {
        trie: from_json(&value)?,
        width: ValueWidth::Bits32,
    })
}

/// Returns the value at a key.
pub(crate) fn value_at<'a>(
    table: &'a crate::toml::Table,
    key: &str,
) -> Option<&'a crate::toml::Value> {
    table.get(key)
}

/// Returns the first of the properties at a key. icuexportdata writes an array of them.
fn first_property(property: &crate::toml::Value) -> Option<&crate::toml::Value> {
    match property.as_array() {
        Some(properties) => properties.first(),
        None => Some(property),
    }
}

/// Returns the trie of a property's table. For normalization, icuexportdata writes a trie in its
/// place.
pub(crate) fn trie_of_table(property: &crate::toml::Table) -> Option<&crate::toml::Table> {
    match value_at(property, "code_point_trie") {
        Some(trie) => trie.as_table(),
        None => value_at(property, "index").map(|_index| property),
    }
}

/// Returns the trie of the properties at a key.
fn trie_of_property(property: &crate::toml::Value) -> Option<&crate::toml::Table> {
    let first = first_property(property)?;
    let table = first.as_table()?;
    trie_of_table(table)
}

/// Returns the trie of the first property that has one, or the whole file if none has.
fn trie_table(file: &crate::toml::Table) -> &crate::toml::Table {
    for property in file.values() {
        if let Some(table) = trie_of_property(property) {
            return table;
        }
    }
    file
}

/// Returns the width of the first array of data that a TOML table has.
fn width_of(read: &CodePointTrieToml) -> ValueWidth {
    match read.data_slice() {
        Ok(CodePointDataSlice::U8(_)) => ValueWidth::Bits8,
        Ok(CodePointDataSlice::U16(_)) => ValueWidth::Bits16,
        Ok(CodePointDataSlice::U32(_)) | Err(_) => ValueWidth::Bits32,
    }
}

/// Reads a TOML file.
pub(crate) fn file_of_toml(text: &str) -> Result<crate::toml::Table, ReadError> {
    match crate::toml::table_from_str(text) {
        Ok(file) => Ok(file),
        Err(error) if error.is_memory() => Err(ReadError::Memory),
        Err(error) => Err(ReadError::Toml(TomlFileError::new(text, error))),
    }
}

/// Returns the table of a trie in TOML.
pub(crate) fn table_of_members(table: &crate::toml::Table) -> Result<Table, ReadError> {
    let read = CodePointTrieToml::from_table(table)?;
    let trie = CodePointTrie::try_from(&read)?;
    let width = width_of(&read);
    Ok(Table { trie, width })
}

/// Reads a table in TOML.
fn table_of_toml(text: &str) -> Result<Table, ReadError> {
    let file = file_of_toml(text)?;
    table_of_members(trie_table(&file))
}

/// Returns whether a text is taken for JSON: whether its first byte after white space is `{`.
fn is_object(text: &str) -> bool {
    text.trim_start().starts_with('{')
}

/// Reads a table in JSON or in TOML.
fn table_of_text(text: &str) -> Result<Table, ReadError> {
    if is_object(text) {
        table_of_json(text)
    } else {
        table_of_toml(text)
    }
}

/// Returns the text of a file that is taken for TOML, or `None` for any other file.
pub(crate) fn toml_text(file: &[u8]) -> Option<&str> {
    if let [b'3', b'i', b'r', b'T', ..] | [b'T', b'r', b'i', b'3', ..] = file {
        return None;
    }
    let text = str::from_utf8(file).ok()?;
    if !is_object(text) { Some(text) } else { None }
}

/// Reads the table that a file has.
///
/// The first bytes decide which form the file is taken for: ICU's binary form, in either byte
/// order, by its signature; JSON by `{` after white space; and TOML otherwise. In TOML the trie is
/// that of the first property that has one, as ICU's icuexportdata writes it, or the whole file. In
/// the binary form, what follows the trie is not read.
///
/// # Errors
/// Returns [`ReadError::Binary`] for the first fault of a file with a signature. Returns
/// [`ReadError::Text`] if the file has no signature and is not a text in UTF-8. Returns
/// [`ReadError::Json`] if a text that starts with `{` is not JSON, and [`ReadError::TrieJson`] for
/// the first fault of its JSON as a trie. Returns [`ReadError::Toml`] if any other text is not
/// TOML, and [`ReadError::TrieToml`] for the first fault of its TOML as a trie. Returns
/// [`ReadError::Memory`] if an allocation fails.
pub fn read_table(file: &[u8]) -> Result<Table, ReadError> {
    match file {
        [b'3', b'i', b'r', b'T', ..] => return table_of_binary(file),
        [b'T', b'r', b'i', b'3', ..] => return table_of_swapped(file),
        _ => {}
    }
    let Ok(text) = str::from_utf8(file) else {
        return Err(ReadError::Text);
    };
    table_of_text(text)
}
