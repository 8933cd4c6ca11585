//! Reads the contents of a TOML table with a trie.

#![cfg(feature = "toml")]
use super::{CodePointTrieToml, TomlError, TomlFields};
use crate::icu_trie::value::TrieValue;
use crate::support::prelude::*;
use toml::value::{Table, Value};

/// Returns the number of a TOML value if it is a whole number of a value of this type.
#[inline]
fn number_of<N: TrieValue>(value: &Value) -> Option<N> {
    let number = u32::try_from(value.as_integer()?).ok()?;
    N::try_from_u32(number).ok()
}

/// Returns the value at a key.
#[inline]
fn value_at<'a>(table: &'a Table, key: &str) -> Option<&'a Value> {
    table.get(key)
}

/// Returns the number at a required key.
#[inline]
fn number_at<N: TrieValue>(table: &Table, key: &'static str) -> Result<N, TomlError> {
    let Some(value) = value_at(table, key) else {
        return Err(TomlError::Missing(key));
    };
    let Some(number) = number_of(value) else {
        return Err(TomlError::OutOfRange(key));
    };
    Ok(number)
}

/// Returns the items of an array.
#[inline]
fn items_of(value: &Value) -> Option<&[Value]> {
    match value.as_array() {
        Some(items) => Some(items.as_slice()),
        None => None,
    }
}

/// Returns the numbers of the items of an array, in their order.
fn numbers_of_items<N: TrieValue>(items: &[Value], key: &'static str) -> Result<Vec<N>, TomlError> {
    let Ok(mut numbers) = Vec::with_room(items.len()) else {
        return Err(TomlError::Memory);
    };
    for item in items {
        let Some(number) = number_of(item) else {
            return Err(TomlError::OutOfRange(key));
        };
        let Ok(()) = numbers.try_push(number) else {
            return Err(TomlError::Memory);
        };
    }
    Ok(numbers)
}

/// Returns the numbers of the array at a key, or `None` if the key is missing.
#[inline]
fn optional_numbers_at<N: TrieValue>(
    table: &Table,
    key: &'static str,
) -> Result<Option<Vec<N>>, TomlError> {
    let Some(value) = value_at(table, key) else {
        return Ok(None);
    };
    let Some(items) = items_of(value) else {
        return Err(TomlError::OutOfRange(key));
    };
    let numbers = numbers_of_items(items, key)?;
    Ok(Some(numbers))
}

/// Returns the numbers of the array at a required key.
#[inline]
fn numbers_at<N: TrieValue>(table: &Table, key: &'static str) -> Result<Vec<N>, TomlError> {
    let Some(numbers) = optional_numbers_at(table, key)? else {
        return Err(TomlError::Missing(key));
    };
    Ok(numbers)
}

/// Returns the numbers of a table besides its arrays.
#[inline]
fn fields_of(table: &Table) -> Result<TomlFields, TomlError> {
    Ok(TomlFields {
        high_start: number_at(table, "highStart")?,
        shifted12_high_start: number_at(table, "shifted12HighStart")?,
        trie_type: number_at(table, "type")?,
        value_width: number_at(table, "valueWidth")?,
        index3_null_offset: number_at(table, "index3NullOffset")?,
        data_null_offset: number_at(table, "dataNullOffset")?,
        null_value: number_at(table, "nullValue")?,
    })
}

impl CodePointTrieToml {
    /// Reads the contents of a table with a trie.
    ///
    /// The keys of the table are:
    ///
    /// - `index`, an array of 16-bit numbers
    /// - `data_8`, `data_16` or `data_32`, an array of numbers of that many bits: the data
    /// - the numbers `highStart` (32 bits), `shifted12HighStart` (16), `type` (8), `valueWidth` (8,
    ///   stored but not used), `index3NullOffset` (16), `dataNullOffset` (32) and `nullValue` (32)
    ///
    /// Other keys are ignored.
    ///
    /// ```
    /// use bekstaudi::codepointtrie::CodePointTrie;
    /// use bekstaudi::codepointtrie::trie_toml::CodePointTrieToml;
    ///
    /// // The value 7 for each code point.
    /// let text = format!(
    ///     "index = [{}]\ndata_8 = [{}]\nindexLength = 64\ndataLength = 128\n\
    ///      highStart = 0\nshifted12HighStart = 0\ntype = 1\nvalueWidth = 2\n\
    ///      index3NullOffset = 0x7fff\ndataNullOffset = 0\nnullValue = 7\n",
    ///     "0, ".repeat(64),
    ///     "7, ".repeat(128)
    /// );
    /// let read = CodePointTrieToml::from_table(&toml::from_str(&text)?)?;
    /// let trie = CodePointTrie::<u8>::try_from(&read)?;
    /// assert_eq!(trie.get('a'), 7);
    /// # Ok::<(), Box<dyn std::error::Error>>(())
    /// ```
    ///
    /// # Errors
    /// Returns the first error in the order of the keys above:
    ///
    /// - `Missing` with the key if a required one is missing. The three keys of the data are
    ///   optional here.
    /// - `OutOfRange` with the key if its value is of another kind, or a number is out of range.
    ///
    /// Returns `Memory` if an allocation fails.
    #[inline]
    pub fn from_table(table: &Table) -> Result<CodePointTrieToml, TomlError> {
        Ok(CodePointTrieToml {
            index: numbers_at(table, "index")?,
            data_8: optional_numbers_at(table, "data_8")?,
            data_16: optional_numbers_at(table, "data_16")?,
            data_32: optional_numbers_at(table, "data_32")?,
            fields: fields_of(table)?,
        })
    }
}
