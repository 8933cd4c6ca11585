//! The set of a property in a TOML file, as ICU's icuexportdata writes it: tables
//! `[[binary_property]]` with `long_name`, `short_name` and `ranges = [[0x41, 0x5a], ..]`, whose
//! bounds are inclusive.

use crate::host::*;
use crate::support::AllocError;
use crate::support::prelude::*;
use crate::toml::{Table, Value};
use crate::ucptrie_sets::error::SetFileError;
use bekstaudi::codepointinvlist::{CodePointInversionList, CodePointInversionListBuilder};
use bekstaudi::zerovec::{CODE_POINT_LIMIT, MemoryError};

/// Returns the code point that a number is.
fn code_point_of(value: &Value) -> Option<u32> {
    let number = u32::try_from(value.as_integer()?).ok()?;
    if number < CODE_POINT_LIMIT {
        Some(number)
    } else {
        None
    }
}

/// Returns the code points of an array of two.
fn pair_in(items: &[Value]) -> Option<(u32, u32)> {
    let [start, end] = items else {
        return None;
    };
    Some((code_point_of(start)?, code_point_of(end)?))
}

/// Returns the items of an array.
fn items_in(value: &Value) -> Option<&[Value]> {
    match value.as_array() {
        Some(items) => Some(items.as_slice()),
        None => None,
    }
}

/// Returns the code points of an array of two.
fn pair_of(value: &Value) -> Option<(u32, u32)> {
    match items_in(value) {
        Some(items) => pair_in(items),
        None => None,
    }
}

/// Returns the inclusive bounds of item `i` of `ranges`.
fn range_of(value: &Value, i: usize) -> Result<(u32, u32), SetFileError> {
    let Some((start, end)) = pair_of(value) else {
        return Err(SetFileError::NotAPair(i));
    };
    if end < start {
        return Err(SetFileError::Reversed(i));
    }
    Ok((start, end))
}

/// Adds the code points of a range, whose bounds are inclusive.
fn add_range(
    builder: &mut CodePointInversionListBuilder,
    range: (u32, u32),
) -> Result<(), MemoryError> {
    let (start, end) = range;
    builder.try_add_range32(start..end + 1)
}

/// Returns the set of the ranges, which may overlap and come in any order.
fn set_of_items(items: &[Value]) -> Result<CodePointInversionList<'static>, SetFileError> {
    let mut builder = CodePointInversionListBuilder::new();
    for (i, item) in items.iter().enumerate() {
        let range = range_of(item, i)?;
        add_range(&mut builder, range)?;
    }
    let set = builder.try_build()?;
    Ok(set)
}

/// Returns the value at a key.
fn value_at<'a>(table: &'a Table, key: &str) -> Option<&'a Value> {
    table.get(key)
}

/// Returns whether the value at a key is this text.
fn has_text(table: &Table, key: &str, text: &str) -> bool {
    let Some(value) = value_at(table, key) else {
        return false;
    };
    match value.as_str() {
        Some(found) => found == text,
        None => false,
    }
}

/// Returns whether a property is asked for: it has the name, or none is asked.
fn is_asked(property: &Value, name: Option<&str>) -> bool {
    let Some(name) = name else {
        return true;
    };
    match property.as_table() {
        Some(table) => has_text(table, "long_name", name) || has_text(table, "short_name", name),
        None => false,
    }
}

/// Returns the first of the properties that is asked for, and those after it.
fn first_asked<'a>(
    properties: &'a [Value],
    name: Option<&str>,
) -> Option<(&'a Value, &'a [Value])> {
    let mut rest = properties;
    while let [property, after @ ..] = rest {
        if is_asked(property, name) {
            return Some((property, after));
        }
        rest = after;
    }
    None
}

/// Returns the only one of the properties that is asked for.
fn asked_among<'a>(properties: &'a [Value], name: Option<&str>) -> Result<&'a Value, SetFileError> {
    let Some((property, others)) = first_asked(properties, name) else {
        return Err(SetFileError::Missing);
    };
    match first_asked(others, name) {
        Some(_) => Err(SetFileError::Several),
        None => Ok(property),
    }
}

/// Returns the items of the array at a key.
fn items_at<'a>(table: &'a Table, key: &str) -> Option<&'a [Value]> {
    match value_at(table, key) {
        Some(value) => items_in(value),
        None => None,
    }
}

/// Returns the items of the array `ranges` of a property.
fn ranges_of(property: &Value) -> Option<&[Value]> {
    match property.as_table() {
        Some(table) => items_at(table, "ranges"),
        None => None,
    }
}

/// Returns the set of the property that is asked for in a table.
fn set_of_table(
    file: &Table,
    name: Option<&str>,
) -> Result<CodePointInversionList<'static>, SetFileError> {
    let Some(properties) = items_at(file, "binary_property") else {
        return Err(SetFileError::NoSets);
    };
    let property = asked_among(properties, name)?;
    let Some(items) = ranges_of(property) else {
        return Err(SetFileError::NoRanges);
    };
    set_of_items(items)
}

/// Reads the set of a property in a TOML file: that with this long or short name, or the only one
/// if no name is asked.
///
/// The ranges may overlap and come in any order. Strings, which some properties have too, are not
/// read.
///
/// # Errors
/// Returns the first variant of [`SetFileError`] that applies. The items of `ranges` are tested in
/// order. `Memory` is returned if an allocation fails.
pub fn set_of_file(
    text: &str,
    name: Option<&str>,
) -> Result<CodePointInversionList<'static>, SetFileError> {
    match crate::toml::table_from_str(text) {
        Ok(file) => set_of_table(&file, name),
        Err(error) if error.is_memory() => Err(SetFileError::Memory),
        Err(_) => Err(SetFileError::NotToml),
    }
}

/// Returns how many items the array `strings` of a property has, or 0 if it has no such array.
fn strings_in(property: &Value) -> usize {
    let Some(table) = property.as_table() else {
        return 0;
    };
    match items_at(table, "strings") {
        Some(items) => items.len(),
        None => 0,
    }
}

/// Returns how many strings the property that is asked for has in a table.
fn strings_of_table(file: &Table, name: Option<&str>) -> usize {
    match items_at(file, "binary_property") {
        Some(properties) => match asked_among(properties, name) {
            Ok(property) => strings_in(property),
            Err(_) => 0,
        },
        None => 0,
    }
}

/// Returns how many strings a property in a TOML file has besides code points, as Basic_Emoji does:
/// that with this long or short name, or the only one if no name is asked. Returns 0 if the text is
/// not TOML, if there is no such property or if it has no array `strings`.
///
/// # Errors
/// Returns [`AllocError`] if an allocation fails.
pub fn count_strings(text: &str, name: Option<&str>) -> Result<usize, AllocError> {
    match crate::toml::table_from_str(text) {
        Ok(file) => Ok(strings_of_table(&file, name)),
        Err(error) if error.is_memory() => Err(AllocError),
        Err(_) => Ok(0),
    }
}
