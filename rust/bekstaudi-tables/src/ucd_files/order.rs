//! Names in order of first appearance.

use crate::host::*;
use crate::support::AllocError;
use crate::support::prelude::*;
use crate::ucd_files::fields::missing_of;
use crate::ucd_files::names::Matching;
use crate::ucd_files::statement::{Columns, content_in, missing_text, value_text};
use crate::ucd_files::value_names::ValueNames;
use crate::ucptab_table::input::first_line;

/// Returns the text of a line's value, if it has one that is not empty.
pub fn text_of_line<'t>(columns: Columns<'_>, line: &'t [u8]) -> Option<&'t [u8]> {
    let text = match missing_of(line) {
        Some(content) => missing_text(columns, content)?,
        None => value_text(columns, content_in(columns, line))?,
    };
    if text.is_empty() {
        return None;
    }
    Some(text)
}

/// Appends a name with the next number, unless it is known.
pub(crate) fn push_new<'a>(names: &mut ValueNames<'a>, text: &'a [u8]) -> Result<(), AllocError> {
    if names.number_named(Matching::Exact, text).is_none() {
        let number = names.as_slice().len();
        names.try_push(number, text)?;
    }
    Ok(())
}

/// Appends the names of the values in a file, `@missing` lines included, in order of first
/// appearance. The number of each is how many names come before it.
///
/// Lines are not tested: [`read_statements`](crate::ucd_files::read::read_statements) does that.
///
/// # Errors
/// Returns [`AllocError`] if an allocation fails.
pub fn names_in_order<'a>(
    input: &'a [u8],
    columns: Columns<'_>,
    names: ValueNames<'a>,
) -> Result<ValueNames<'a>, AllocError> {
    let mut names = names;
    let mut rest = input;
    while let Some((line, after)) = first_line(rest) {
        rest = after;
        if let Some(text) = text_of_line(columns, line) {
            push_new(&mut names, text)?;
        }
    }
    Ok(names)
}
