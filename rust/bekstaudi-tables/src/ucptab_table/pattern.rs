//! Texts with a name and numbers in them.

use crate::host::*;
use crate::support::AllocError;
use crate::support::prelude::*;

/// How many cells a line has.
const CELLS_IN_LINE: usize = 16;

/// A number, and its digits.
#[derive(Clone, Copy)]
pub enum Number {
    /// Decimal digits.
    Decimal(usize),
    /// Hexadecimal digits in lower case, behind `0x`.
    Hexadecimal(u32),
}

/// Appends a number.
///
/// # Errors
/// Returns [`AllocError`] if an allocation fails.
pub fn push_number(text: &mut String, number: Number) -> Result<(), AllocError> {
    match number {
        Number::Decimal(n) => write!(text, "{n}"),
        Number::Hexadecimal(n) => write!(text, "0x{n:x}"),
    }
}

/// Appends a text in which each `@` is replaced by the name.
///
/// # Errors
/// Returns [`AllocError`] if an allocation fails.
pub fn push_named(text: &mut String, pattern: &str, name: &str) -> Result<(), AllocError> {
    let mut rest = pattern;
    while let Some((piece, others)) = rest.split_once('@') {
        text.try_push_str(piece)?;
        text.try_push_str(name)?;
        rest = others;
    }
    text.try_push_str(rest)
}

/// Appends the first of some numbers, if there is one, and returns the others.
fn push_first<'n>(text: &mut String, numbers: &'n [Number]) -> Result<&'n [Number], AllocError> {
    let [number, others @ ..] = numbers else {
        return Ok(numbers);
    };
    push_number(text, *number)?;
    Ok(others)
}

/// Appends a text in which each `@` is replaced by the name, and each `%` by the next number. If no
/// number is left, nothing replaces it.
///
/// # Errors
/// Returns [`AllocError`] if an allocation fails.
pub fn push_pattern(
    text: &mut String,
    pattern: &str,
    name: &str,
    numbers: &[Number],
) -> Result<(), AllocError> {
    let mut left = numbers;
    let mut rest = pattern;
    while let Some((piece, others)) = rest.split_once('%') {
        push_named(text, piece, name)?;
        left = push_first(text, left)?;
        rest = others;
    }
    push_named(text, rest, name)
}

/// Returns a number as ICU's tools write it: in decimal up to 9, and in hexadecimal above.
fn number_of(cell: u32) -> Number {
    if cell <= 9 {
        Number::Decimal(cell as usize)
    } else {
        Number::Hexadecimal(cell)
    }
}

/// Appends what precedes the cell `i` of an array: nothing, a comma, or a comma and a new line.
fn push_gap(text: &mut String, i: usize, indent: &str) -> Result<(), AllocError> {
    if i == 0 {
        return Ok(());
    }
    if !i.is_multiple_of(CELLS_IN_LINE) {
        return text.try_push(',');
    }
    text.try_push_str(",\n")?;
    text.try_push_str(indent)
}

/// Appends the cell `i` of an array, as ICU's tools write it (usrc_writeArray): sixteen cells to a
/// line, with commas between them, in decimal up to 9 and in hexadecimal above. Every line but the
/// first starts with the indent.
///
/// # Errors
/// Returns [`AllocError`] if an allocation fails.
pub fn push_cell(text: &mut String, i: usize, cell: u32, indent: &str) -> Result<(), AllocError> {
    push_gap(text, i, indent)?;
    push_number(text, number_of(cell))
}
