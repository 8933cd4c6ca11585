//! What the combinations of a joined table are called.
use crate::host::*;
use crate::support::AllocError;
use crate::support::prelude::*;
use crate::ucd_files::kind::are_digits;
use crate::ucptrie::columns::{Column, ColumnValues, Columns, ValueName};
use crate::ucptrie_tables::join::Join;

/// Returns the bytes of a name, or 0 if it is a number: a value is named by its number only if it
/// has no other name.
fn length_of(name: &[u8]) -> usize {
    if are_digits(name) { 0 } else { name.len() }
}

/// Returns the longest name of a number, and of several the first, or nothing if it has none.
fn longest_name(names: &[ValueName], number: u32) -> &[u8] {
    let mut longest: &[u8] = &[];
    for name in names {
        let is_longer = longest.is_empty() || length_of(longest) < length_of(&name.text);
        if name.number == number as usize && is_longer {
            longest = &name.text;
        }
    }
    longest
}

/// Appends the name of a value, or `Unlisted` if it is that of code points without a line.
fn push_name(text: &mut Vec<u8>, names: &[ValueName], number: u32) -> Result<(), AllocError> {
    let name = longest_name(names, number);
    text.try_extend_from_slice(if name.is_empty() { b"Unlisted" } else { name })?;
    Ok(())
}

/// Appends a number in decimal digits.
fn push_number(text: &mut Vec<u8>, number: usize) -> Result<(), AllocError> {
    let mut digits = String::new();
    write!(digits, "{number}")?;
    text.try_extend_from_slice(digits.as_bytes())?;
    Ok(())
}

/// Appends what a combination is called after its value in a column: the name of the value or its
/// number; the property if it is true, and nothing if it is false.
fn push_part(text: &mut Vec<u8>, column: &Column, value: u32) -> Result<(), AllocError> {
    let is_false = matches!(column.values, ColumnValues::Binary) && value == 0;
    if !text.is_empty() && !is_false {
        text.try_push(b' ')?;
    }
    match &column.values {
        ColumnValues::Binary if value == 0 => Ok(()),
        ColumnValues::Binary => {
            text.try_extend_from_slice(column.label.as_bytes())?;
            Ok(())
        }
        ColumnValues::Names(names) => push_name(text, names, value),
        ColumnValues::Numbers => push_number(text, value as usize),
    }
}

/// Returns the name of the combination that the code point `c` has: the values of the columns, or
/// `No` if they are all false.
fn combination_name(columns: &Columns, c: u32) -> Result<Vec<u8>, AllocError> {
    let mut text = Vec::new();
    for (column, table) in columns.columns.iter().zip(&columns.tables) {
        push_part(&mut text, column, table.trie.get32(c))?;
    }
    if text.is_empty() {
        text.try_extend_from_slice(b"No")?;
    }
    Ok(text)
}

/// Returns the names of the combinations.
pub fn combination_names(columns: &Columns, join: &Join) -> Result<Vec<ValueName>, AllocError> {
    let mut names = Vec::new();
    for (number, first) in join.firsts.iter().enumerate() {
        let text = combination_name(columns, *first)?;
        names.try_push(ValueName { number, text })?;
    }
    Ok(names)
}

/// Appends a field with a value of a column: its name or its number; `Y` or `N` if it is true or
/// false.
fn push_field(text: &mut Vec<u8>, column: &Column, value: u32) -> Result<(), AllocError> {
    text.try_push(b';')?;
    match &column.values {
        ColumnValues::Binary => {
            text.try_push(if value == 0 { b'N' } else { b'Y' })?;
            Ok(())
        }
        ColumnValues::Names(names) => push_name(text, names, value),
        ColumnValues::Numbers => push_number(text, value as usize),
    }
}

/// Appends the line of a combination, whose first code point is `c`.
fn push_line(
    text: &mut Vec<u8>,
    columns: &Columns,
    number: usize,
    c: u32,
) -> Result<(), AllocError> {
    push_number(text, number)?;
    for (column, table) in columns.columns.iter().zip(&columns.tables) {
        push_field(text, column, table.trie.get32(c))?;
    }
    text.try_push(b'\n')?;
    Ok(())
}

/// Returns a line `NUMBER;VALUE;..` for each combination, with a value for each column.
pub fn combination_list(columns: &Columns, join: &Join) -> Result<Vec<u8>, AllocError> {
    let mut text = Vec::new();
    for (number, first) in join.firsts.iter().enumerate() {
        push_line(&mut text, columns, number, *first)?;
    }
    Ok(text)
}
