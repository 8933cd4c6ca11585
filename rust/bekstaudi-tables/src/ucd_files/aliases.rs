//! Names and numbers of values from `PropertyValueAliases.txt`.

use crate::host::*;
use crate::support::AllocError;
use crate::support::prelude::*;
use crate::ucd_files::fields::{field, missing_of};
use crate::ucd_files::names::{is_same_name, short_decimal};
use crate::ucd_files::statement::{later_field, untagged};
use crate::ucd_files::value_names::ValueNames;
use crate::ucptab_table::input::first_line;
use crate::ucptab_table::rows::{after, content_of};

/// Returns whether a line has names of one value of the property. A line with `|` in its comment
/// names a group of values.
fn is_value_line(property: &[u8], line: &[u8]) -> bool {
    is_same_name(field(0, content_of(line)), property) && !after(b'#', line).contains(&b'|')
}

/// Returns the number of the `k`-th value of a property, counted from 0: `k`, or the number in
/// field 1 if it is one.
fn value_number(k: usize, content: &[u8]) -> usize {
    match short_decimal(field(1, content)) {
        Some(number) => number as usize,
        None => k,
    }
}

/// Appends a name if it is not empty.
fn push_named<'a>(
    names: &mut ValueNames<'a>,
    number: usize,
    text: &'a [u8],
) -> Result<(), AllocError> {
    if !text.is_empty() {
        names.try_push(number, text)?;
    }
    Ok(())
}

/// Appends the names in fields 1 to 4.
fn push_names<'a>(
    names: &mut ValueNames<'a>,
    number: usize,
    content: &'a [u8],
) -> Result<(), AllocError> {
    push_named(names, number, field(1, content))?;
    push_named(names, number, field(2, content))?;
    push_named(names, number, field(3, content))?;
    push_named(names, number, field(4, content))
}

/// Returns the names and numbers of the values of a property, by the lines
/// `PROPERTY ; NAME ; ..` of `PropertyValueAliases.txt`. All names of a line have the same number:
/// how many values of the property come before it in the file, or the number in field 1 if it is
/// one, as for Canonical_Combining_Class. Lines for groups of values, as `L` of `gc`, are left out.
///
/// # Errors
/// Returns [`AllocError`] if an allocation fails.
pub fn alias_names<'a>(input: &'a [u8], property: &[u8]) -> Result<ValueNames<'a>, AllocError> {
    let mut names = ValueNames::new();
    let mut k = 0usize;
    let mut rest = input;
    while let Some((line, after)) = first_line(rest) {
        rest = after;
        if is_value_line(property, line) {
            let content = content_of(line);
            push_names(&mut names, value_number(k, content), content)?;
            k += 1;
        }
    }
    Ok(names)
}

/// Returns whether the last line with content is one of the property, for the lines up to this one.
/// `follows` is the same for the lines before it.
fn follows_values(property: &[u8], follows: bool, line: &[u8]) -> bool {
    let content = content_of(line);
    if content.is_empty() {
        follows
    } else {
        is_same_name(field(0, content), property)
    }
}

/// Returns the value of the code points without a line, by `PropertyValueAliases.txt`: that in the
/// first `@missing` line that follows the lines of the property, with only lines without content
/// between them. Returns `None` if there is no such line, or if its value is not written as text,
/// as in `<none>`.
pub fn missing_alias<'a>(input: &'a [u8], property: &[u8]) -> Option<&'a [u8]> {
    let mut follows = false;
    let mut rest = input;
    while let Some((line, after)) = first_line(rest) {
        match missing_of(line) {
            Some(content) if follows => return untagged(later_field(content)),
            _ => follows = follows_values(property, follows, line),
        }
        rest = after;
    }
    None
}
