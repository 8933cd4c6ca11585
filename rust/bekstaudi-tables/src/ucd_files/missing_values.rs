//! The values of code points without a line.

use crate::host::*;
use crate::support::AllocError;
use crate::support::prelude::*;
use crate::ucd_files::aliases::missing_alias;
use crate::ucd_files::coverage::lines_cover_all;
use crate::ucd_files::error::FileError;
use crate::ucd_files::fields::missing_of;
use crate::ucd_files::kind::are_digits;
use crate::ucd_files::names::{Matching, Name, Numbering, number_of};
use crate::ucd_files::order::{push_new, text_of_line};
use crate::ucd_files::statement::Columns;
use crate::ucd_files::value_names::ValueNames;
use crate::ucptab_table::input::first_line;

/// What says which value code points without a line have.
#[derive(Clone, Copy, Debug, PartialEq, Eq)]
pub enum MissingValue {
    /// Nothing has to say it: values are numbers.
    Numbers,
    /// The file itself: its lines, `@missing` lines included, cover all code points.
    InLines,
    /// An `@missing` line of the file of aliases. This is the number of the value.
    Number(u32),
    /// Nothing.
    Unsaid,
}

/// Returns the texts of values in `@missing` lines, or else those in the other lines, each once.
fn texts_in<'f>(
    are_missing: bool,
    input: &'f [u8],
    columns: Columns<'_>,
) -> Result<ValueNames<'f>, AllocError> {
    let mut names = ValueNames::new();
    let mut rest = input;
    while let Some((line, after)) = first_line(rest) {
        rest = after;
        match text_of_line(columns, line) {
            Some(text) if missing_of(line).is_some() == are_missing => push_new(&mut names, text)?,
            _ => {}
        }
    }
    Ok(names)
}

/// Returns whether one of the names is the text.
fn is_known(names: &ValueNames<'_>, text: &[u8]) -> bool {
    names.number_named(Matching::Exact, text).is_some()
}

/// Returns the first of the names that is not among others.
fn first_other<'f>(names: &[Name<'f>], others: &ValueNames<'_>) -> Option<&'f [u8]> {
    let mut rest = names;
    while let [name, after @ ..] = rest {
        if !is_known(others, name.text) {
            return Some(name.text);
        }
        rest = after;
    }
    None
}

/// Returns the first value that only `@missing` lines have, if these have at least two values. A
/// file with such a value, as `DerivedBidiClass.txt`, has long names in `@missing` lines and short
/// ones in other lines, so names that are not equal can be the same value.
///
/// # Errors
/// Returns [`AllocError`] if an allocation fails.
pub fn only_missing<'f>(
    input: &'f [u8],
    columns: Columns<'_>,
) -> Result<Option<&'f [u8]>, AllocError> {
    let missing = texts_in(true, input, columns)?;
    if missing.as_slice().len() < 2 {
        return Ok(None);
    }
    let others = texts_in(false, input, columns)?;
    Ok(first_other(missing.as_slice(), &others))
}

/// Returns the first of the names that does not have decimal digits alone.
fn first_name<'f>(names: &[Name<'f>]) -> Option<&'f [u8]> {
    let mut rest = names;
    while let [name, after @ ..] = rest {
        if !are_digits(name.text) {
            return Some(name.text);
        }
        rest = after;
    }
    None
}

/// Returns the first value of `@missing` lines that is not a number, if the values of all other
/// lines are numbers, as in `DerivedCombiningClass.txt`. Numbers have decimal digits alone.
///
/// # Errors
/// Returns [`AllocError`] if an allocation fails.
pub fn only_name<'f>(
    input: &'f [u8],
    columns: Columns<'_>,
) -> Result<Option<&'f [u8]>, AllocError> {
    let explicit = texts_in(false, input, columns)?;
    if first_name(explicit.as_slice()).is_some() {
        return Ok(None);
    }
    let missing = texts_in(true, input, columns)?;
    Ok(first_name(missing.as_slice()))
}

/// Returns whether values have their numbers by names.
fn is_by_names(numbering: Numbering<'_>) -> bool {
    matches!(numbering, Numbering::Names(_, _))
}

/// Returns the number of the value that the file of aliases names for code points without a line.
fn alias_number(numbering: Numbering<'_>, aliases: &[u8], property: &[u8]) -> Option<u32> {
    match missing_alias(aliases, property) {
        Some(text) => number_of(numbering, text),
        None => None,
    }
}

/// Returns what says which value code points without a line have, if values are named: the lines of
/// the file itself, `@missing` lines included, if they cover all code points; or else the file of
/// aliases.
///
/// # Errors
/// Returns those of [`read_writes`](crate::ucd_files::read::read_writes), unless values are numbers.
pub fn missing_value(
    input: &[u8],
    columns: Columns<'_>,
    numbering: Numbering<'_>,
    aliases: &[u8],
    property: &[u8],
) -> Result<MissingValue, FileError> {
    if !is_by_names(numbering) {
        return Ok(MissingValue::Numbers);
    }
    if lines_cover_all(input, columns, numbering)? {
        return Ok(MissingValue::InLines);
    }
    match alias_number(numbering, aliases, property) {
        Some(number) => Ok(MissingValue::Number(number)),
        None => Ok(MissingValue::Unsaid),
    }
}
