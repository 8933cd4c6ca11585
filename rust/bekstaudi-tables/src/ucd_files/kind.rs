//! Which kind of file some lines are.

use crate::host::*;
use crate::support::prelude::*;
use crate::ucd_files::fields::{after_mark, field, has_field, missing_of};
use crate::ucd_files::names::is_same_name;
use crate::ucd_files::order::text_of_line;
use crate::ucd_files::statement::{Columns, missing_text};
use crate::ucd_files::title::title_of;
use crate::ucptab_table::digits::hexadecimal;
use crate::ucptab_table::input::first_line;
use crate::ucptab_table::rows::content_of;

/// The kinds of files from which a table can be built.
#[derive(Clone, Copy, Debug, PartialEq, Eq)]
pub enum FileKind {
    /// Rows of `ucptab`: code points and a number.
    Rows,
    /// `UnicodeData.txt`: 15 fields, and ranges in two lines.
    UnicodeData,
    /// Any other file of the Unicode Character Database with a property in each line.
    Properties,
    /// A file of the Unicode Character Database with only code points in each line.
    CodePoints,
    /// A file of Unihan: `U+HEX`, a property and a value, with tabs between them.
    Unihan,
}

/// Returns the content of the first line that has any, or nothing.
fn first_content(input: &[u8]) -> &[u8] {
    let mut rest = input;
    while let Some((line, after)) = first_line(rest) {
        let content = content_of(line);
        if !content.is_empty() {
            return content;
        }
        rest = after;
    }
    &[]
}

/// Returns whether a line is of a file of Unihan: whether it starts with `U+` and has a tab.
fn is_of_unihan(content: &[u8]) -> bool {
    after_mark(content).is_some() && content.contains(&b'\t')
}

/// Returns whether a file has an `@missing` line, about whichever property.
fn has_missing_line(input: &[u8]) -> bool {
    let mut rest = input;
    while let Some((line, after)) = first_line(rest) {
        if missing_of(line).is_some() {
            return true;
        }
        rest = after;
    }
    false
}

/// Returns whether a file has a line that is neither blank nor a comment, or an `@missing` line.
pub fn has_values(input: &[u8]) -> bool {
    !first_content(input).is_empty() || has_missing_line(input)
}

/// Returns whether a line of a file has a field after its code points.
fn has_fields(input: &[u8]) -> bool {
    let mut rest = input;
    while let Some((line, after)) = first_line(rest) {
        if has_field(1, content_of(line)) {
            return true;
        }
        rest = after;
    }
    false
}

/// Returns the kind of a file, by its first line with content. `UnicodeData.txt` has 14 semicolons
/// in it. Other files of the Unicode Character Database start with a title. If no line has a second
/// field, and none is an `@missing` line, they are lists of code points. Files without a title are
/// rows, unless they have an `@missing` line, or `has_properties` says that their lines have
/// properties.
pub fn kind_of(input: &[u8], has_properties: bool) -> FileKind {
    let content = first_content(input);
    if content.iter().filter(|byte| **byte == b';').count() == 14 {
        return FileKind::UnicodeData;
    }
    if is_of_unihan(content) {
        return FileKind::Unihan;
    }
    let has_title = title_of(input).is_some();
    if !(has_title || has_properties || has_missing_line(input)) {
        return FileKind::Rows;
    }
    if has_title && !has_fields(input) && !has_missing_line(input) {
        FileKind::CodePoints
    } else {
        FileKind::Properties
    }
}

/// Returns whether a line has this property in field 1, so that the file has more than one.
pub fn has_property(input: &[u8], property: &[u8]) -> bool {
    let mut rest = input;
    while let Some((line, after)) = first_line(rest) {
        if is_same_name(field(1, content_of(line)), property) {
            return true;
        }
        rest = after;
    }
    false
}

/// Returns whether a line says which value code points without a line have: `# @missing: ..`, about
/// the property that is read.
fn says_missing(columns: Columns<'_>, line: &[u8]) -> bool {
    match missing_of(line) {
        Some(content) => missing_text(columns, content).is_some(),
        None => false,
    }
}

/// Returns whether a file says which value code points without a line have.
pub fn has_missing_lines(input: &[u8], columns: Columns<'_>) -> bool {
    let mut rest = input;
    while let Some((line, after)) = first_line(rest) {
        if says_missing(columns, line) {
            return true;
        }
        rest = after;
    }
    false
}

/// Returns whether a text has decimal digits alone, however many. The empty text has.
pub fn are_digits(text: &[u8]) -> bool {
    text.iter().all(|byte| byte.is_ascii_digit())
}

/// Returns whether a line has no value, or one of decimal digits alone, however many.
fn has_decimal(columns: Columns<'_>, line: &[u8]) -> bool {
    match text_of_line(columns, line) {
        Some(text) => are_digits(text),
        None => true,
    }
}

/// Returns whether each value in a file has decimal digits alone. One can have more than 32 bits,
/// and be the fault of its line.
pub fn are_decimal(input: &[u8], columns: Columns<'_>) -> bool {
    let mut rest = input;
    while let Some((line, after)) = first_line(rest) {
        if !has_decimal(columns, line) {
            return false;
        }
        rest = after;
    }
    true
}

/// Returns whether a line has no value, or one that is a code point as the Unicode Character
/// Database writes it, in 4 to 6 hexadecimal digits.
fn has_code_point(columns: Columns<'_>, line: &[u8]) -> bool {
    match text_of_line(columns, line) {
        Some(text) => text.len() >= 4 && text.len() <= 6 && hexadecimal(text).is_some(),
        None => true,
    }
}

/// Returns whether each value in a file is a code point, in 4 to 6 hexadecimal digits.
pub fn are_code_points(input: &[u8], columns: Columns<'_>) -> bool {
    let mut rest = input;
    while let Some((line, after)) = first_line(rest) {
        if !has_code_point(columns, line) {
            return false;
        }
        rest = after;
    }
    true
}

/// Returns whether a line has a value that starts with `0`.
fn has_leading_zero(columns: Columns<'_>, line: &[u8]) -> bool {
    match text_of_line(columns, line) {
        Some(text) => text.starts_with(b"0".as_slice()),
        None => false,
    }
}

/// Returns whether a value in a file starts with `0`, as code points of 4 digits do.
pub fn have_leading_zero(input: &[u8], columns: Columns<'_>) -> bool {
    let mut rest = input;
    while let Some((line, after)) = first_line(rest) {
        if has_leading_zero(columns, line) {
            return true;
        }
        rest = after;
    }
    false
}
