//! The names of the functions of a joined table's properties.
use crate::clap::ArgMatches;
use crate::host::*;
use crate::support::AllocError;
use crate::support::prelude::*;
use crate::ucptrie::columns::Column;
use crate::ucptrie::names::{is_reserved, name_in};
use crate::ucptrie_inputs::error::{Error, said};
use crate::ucptrie_names::value_names::enum_name;

/// What source defines itself, beside the functions of the properties.
static DEFINED_BY_SOURCE: [&str; 9] = [
    "from_name",
    "get",
    "index1",
    "name",
    "of",
    "open",
    "table",
    "trie",
    "value",
];

/// Appends a byte of a name in lower case. `_` precedes a capital letter after a small one or after
/// a digit, and stands for a byte that is no letter or digit.
fn push_byte(text: &mut String, previous: u8, byte: u8) -> Result<(), AllocError> {
    if !byte.is_ascii_alphanumeric() {
        return text.try_push('_');
    }
    let starts_word = previous.is_ascii_lowercase() || previous.is_ascii_digit();
    if byte.is_ascii_uppercase() && starts_word {
        text.try_push('_')?;
    }
    text.try_push(char::from(byte.to_ascii_lowercase()))
}

/// Returns the name of the function of a property: its words in lower case, with `_` between them.
pub fn function_name(property: &str) -> Result<String, AllocError> {
    let mut name = String::new();
    let mut previous = b'_';
    for byte in property.as_bytes() {
        if name.is_empty() && byte.is_ascii_digit() {
            name.try_push('v')?;
        }
        push_byte(&mut name, previous, *byte)?;
        previous = *byte;
    }
    if is_reserved(name.as_str()) || DEFINED_BY_SOURCE.contains(&name.as_str()) {
        name.try_push_str("_value")?;
    }
    Ok(name)
}

/// Returns the fault of two properties whose functions or types would have the same name.
fn same_names(first: &str, second: &str) -> Error {
    said(same_line(first, second))
}

/// Returns the line about two names that are the same in source.
fn same_line(first: &str, second: &str) -> Result<String, AllocError> {
    let mut line = String::new();
    line.try_push_str(first)?;
    line.try_push_str(" and ")?;
    line.try_push_str(second)?;
    line.try_push_str(": the same name in source: choose another --name")?;
    Ok(line)
}

/// Tests that the type of a property and that of the joined values have different names.
fn test_name_of_table(name: &str, column: &Column) -> Result<(), Error> {
    let title = enum_name(name)?;
    if enum_name(column.function.as_str())?.as_str() == title.as_str() {
        return Err(same_names(name, column.label.as_str()));
    }
    Ok(())
}

/// Tests that the types of two properties have different names, as then their functions have.
fn test_pair(first: &Column, second: &Column) -> Result<(), Error> {
    let title = enum_name(first.function.as_str())?;
    if enum_name(second.function.as_str())?.as_str() == title.as_str() {
        return Err(same_names(first.label.as_str(), second.label.as_str()));
    }
    Ok(())
}

/// Tests that the type of a column has another name than those of the columns before it.
fn test_before(before: &[Column], column: &Column) -> Result<(), Error> {
    for other in before {
        test_pair(other, column)?;
    }
    Ok(())
}

/// Tests that all functions and types of a joined table have different names.
pub fn test_functions(matches: &ArgMatches<'_>, columns: &[Column]) -> Result<(), Error> {
    for (i, column) in columns.iter().enumerate() {
        test_name_of_table(name_in(matches), column)?;
        let (before, _) = columns.split_at(i);
        test_before(before, column)?;
    }
    Ok(())
}
