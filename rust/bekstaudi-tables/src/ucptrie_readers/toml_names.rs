//! The names of the values of a property in a TOML file, as ICU's icuexportdata writes them: in an
//! array `values` of tables with `discr`, `long`, `short` and `aliases`; or, before ICU 73, in the
//! tables of the array `ranges`, whose value `v` has a `name`.

use crate::host::*;
use crate::support::AllocError;
use crate::support::prelude::*;
use crate::toml::{Table, Value};
use crate::ucd_files::names::Matching;
use crate::ucd_files::value_names::ValueNames;
use crate::ucptrie_readers::read::value_at;
use core::fmt;

/// An array with names of values.
#[derive(Clone, Copy, Debug, PartialEq, Eq)]
pub enum NameArray {
    /// `values`: each item has the number `discr`.
    Values,
    /// `ranges`: each item has the number `v`.
    Ranges,
}

impl NameArray {
    /// Returns the key of the array in a property.
    fn key(self) -> &'static str {
        match self {
            NameArray::Values => "values",
            NameArray::Ranges => "ranges",
        }
    }

    /// Returns the key of the number in an item.
    fn number_key(self) -> &'static str {
        match self {
            NameArray::Values => "discr",
            NameArray::Ranges => "v",
        }
    }
}

/// Writes the key of the array.
impl fmt::Display for NameArray {
    fn fmt(&self, f: &mut fmt::Formatter<'_>) -> fmt::Result {
        f.write_str(self.key())
    }
}

/// Why the names of a property's values can't be read.
#[derive(Clone, Copy, Debug, PartialEq, Eq)]
pub enum NamesError {
    /// This item of the array, counted from 0, has no number of at most 32 bits, or a name that is
    /// no text.
    Item(NameArray, usize),
    /// An allocation failed.
    Memory,
}

impl From<AllocError> for NamesError {
    fn from(_error: AllocError) -> NamesError {
        NamesError::Memory
    }
}

/// Returns the items of an array.
pub(crate) fn items_in(value: &Value) -> Option<&[Value]> {
    match value.as_array() {
        Some(items) => Some(items.as_slice()),
        None => None,
    }
}

/// Returns the number of at most 32 bits at a key.
fn number_at(table: &Table, key: &str) -> Option<u32> {
    u32::try_from(value_at(table, key)?.as_integer()?).ok()
}

/// Returns whether a text is a name of this number: the first one that is the text has it.
fn is_name_of(names: &ValueNames<'_>, number: usize, text: &[u8]) -> bool {
    match names.number_named(Matching::Exact, text) {
        Some(found) => found == number,
        None => false,
    }
}

/// Appends a text as a name of a number, unless it is one already.
fn push_name<'a>(
    names: &mut ValueNames<'a>,
    number: usize,
    text: &'a [u8],
) -> Result<(), AllocError> {
    if is_name_of(names, number, text) {
        return Ok(());
    }
    names.try_push(number, text)
}

/// Appends a value as a name of a number. Returns whether it is a text.
fn push_text<'a>(
    names: &mut ValueNames<'a>,
    number: u32,
    value: &'a Value,
) -> Result<bool, AllocError> {
    let Some(text) = value.as_str() else {
        return Ok(false);
    };
    push_name(names, number as usize, text.as_bytes())?;
    Ok(true)
}

/// Appends values as names of a number. Returns whether all of them are texts.
fn push_texts<'a>(
    names: &mut ValueNames<'a>,
    number: u32,
    values: &'a [Value],
) -> Result<bool, AllocError> {
    let mut rest = values;
    while let [value, after @ ..] = rest {
        if !push_text(names, number, value)? {
            return Ok(false);
        }
        rest = after;
    }
    Ok(true)
}

/// Appends the text at a key as a name of a number, if there is a value at it. Returns whether it
/// is a text.
fn push_name_at<'a>(
    names: &mut ValueNames<'a>,
    number: u32,
    table: &'a Table,
    key: &str,
) -> Result<bool, AllocError> {
    match value_at(table, key) {
        Some(value) => push_text(names, number, value),
        None => Ok(true),
    }
}

/// Appends a value as an array with names of a number. Returns whether it is an array of texts.
fn push_array<'a>(
    names: &mut ValueNames<'a>,
    number: u32,
    value: &'a Value,
) -> Result<bool, AllocError> {
    match items_in(value) {
        Some(items) => push_texts(names, number, items),
        None => Ok(false),
    }
}

/// Appends the texts of the array at a key as names of a number, if there is a value at it. Returns
/// whether it is an array of texts.
fn push_names_at<'a>(
    names: &mut ValueNames<'a>,
    number: u32,
    table: &'a Table,
    key: &str,
) -> Result<bool, AllocError> {
    match value_at(table, key) {
        Some(value) => push_array(names, number, value),
        None => Ok(true),
    }
}

/// Appends the names in the table of a value, whose number is known. Returns whether all are texts.
fn push_value<'a>(
    names: &mut ValueNames<'a>,
    number: u32,
    table: &'a Table,
) -> Result<bool, AllocError> {
    let are_texts = push_name_at(names, number, table, "long")?
        && push_name_at(names, number, table, "short")?
        && push_name_at(names, number, table, "name")?
        && push_names_at(names, number, table, "aliases")?;
    Ok(are_texts)
}

/// Appends the names in an item of an array. Returns whether it is a table with a number, and its
/// names are texts.
fn push_item<'a>(
    names: &mut ValueNames<'a>,
    array: NameArray,
    item: &'a Value,
) -> Result<bool, AllocError> {
    let Some(table) = item.as_table() else {
        return Ok(false);
    };
    match number_at(table, array.number_key()) {
        Some(number) => push_value(names, number, table),
        None => Ok(false),
    }
}

/// Returns the names in the items of an array.
fn names_in<'a>(array: NameArray, items: &'a [Value]) -> Result<ValueNames<'a>, NamesError> {
    let mut names = ValueNames::new();
    let mut i = 0usize;
    let mut rest = items;
    while let [item, after @ ..] = rest {
        if !push_item(&mut names, array, item)? {
            return Err(NamesError::Item(array, i));
        }
        i += 1;
        rest = after;
    }
    Ok(names)
}

/// Returns the items of the array at a key.
pub(crate) fn items_at<'a>(table: &'a Table, key: &str) -> Option<&'a [Value]> {
    match value_at(table, key) {
        Some(value) => items_in(value),
        None => None,
    }
}

/// Returns the names and numbers of the values of a property: those in its array `values`, or else
/// those in its array `ranges`, or none if it has neither.
///
/// An item has the number `discr`, or `v` in `ranges`. Its names are the texts at `long`, `short`
/// and `name`, as far as there are such keys, and those in the array `aliases`. A name is listed
/// once for its number.
///
/// # Errors
/// Returns [`NamesError::Item`] for the first item that is no table, that has no number of at most
/// 32 bits, or of which a name is no text. Returns [`NamesError::Memory`] if an allocation fails.
pub fn names_of<'a>(property: &'a Table) -> Result<ValueNames<'a>, NamesError> {
    if let Some(items) = items_at(property, NameArray::Values.key()) {
        return names_in(NameArray::Values, items);
    }
    match items_at(property, NameArray::Ranges.key()) {
        Some(items) => names_in(NameArray::Ranges, items),
        None => Ok(ValueNames::new()),
    }
}

impl core::fmt::Display for NamesError {
    fn fmt(&self, f: &mut core::fmt::Formatter<'_>) -> core::fmt::Result {
        match self {
            NamesError::Item(first, second) => write!(
                f,
                "{first}[{second}] is no table with a number up to 4294967295 and texts as names"
            ),
            NamesError::Memory => f.write_str("no memory"),
        }
    }
}

impl core::error::Error for NamesError {}
