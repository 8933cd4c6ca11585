//! Reads one line of the table.

use crate::host::*;
use crate::support::prelude::*;
use crate::ucptab_table::digits::{decimal_number, hexadecimal};
use crate::ucptab_table::error::RowError;
use bekstaudi::codepointtrie::Write;
use bekstaudi::zerovec::CODE_POINT_LIMIT;

/// The code points of a row.
#[derive(Clone, Copy, Debug, PartialEq, Eq)]
pub enum CodePoints {
    /// One code point.
    Single(u32),
    /// The code points from the first to the second, both inclusive.
    Span(u32, u32),
}

/// Returns the bytes without leading spaces and tabs.
fn trim_start(bytes: &[u8]) -> &[u8] {
    let mut rest = bytes;
    while let [b' ' | b'\t', others @ ..] = rest {
        rest = others;
    }
    rest
}

/// Returns the bytes without trailing spaces and tabs.
fn trim_end(bytes: &[u8]) -> &[u8] {
    let mut rest = bytes;
    while let [others @ .., b' ' | b'\t'] = rest {
        rest = others;
    }
    rest
}

/// Returns the bytes without leading and trailing spaces and tabs.
pub fn trimmed(bytes: &[u8]) -> &[u8] {
    trim_end(trim_start(bytes))
}

/// Returns the index of the first byte that is `mark`, or the length if there is none.
pub fn position_or_len(mark: u8, bytes: &[u8]) -> usize {
    match bytes.iter().position(|b| *b == mark) {
        Some(place) => place,
        None => bytes.len(),
    }
}

/// Returns the bytes before the first one that is `mark`, or all if there is none.
pub fn before(mark: u8, bytes: &[u8]) -> &[u8] {
    &bytes[..position_or_len(mark, bytes)]
}

/// Returns the bytes after the first one that is `mark`, or nothing if there is none.
pub fn after(mark: u8, bytes: &[u8]) -> &[u8] {
    let place = position_or_len(mark, bytes);
    if place < bytes.len() {
        &bytes[place + 1..]
    } else {
        &[]
    }
}

/// Returns the code points of the field `HEX` or `HEX..HEX`, or `None` for any other field.
pub fn code_points_of(field: &[u8]) -> Option<CodePoints> {
    if let [b'.', end @ ..] = after(b'.', field) {
        let start = hexadecimal(before(b'.', field))?;
        let end = hexadecimal(end)?;
        return Some(CodePoints::Span(start, end));
    }
    let code_point = hexadecimal(field)?;
    Some(CodePoints::Single(code_point))
}

/// Returns the write of a row, or the first fault of its numbers.
fn row_of_numbers(points: CodePoints, value: u64) -> Result<Write<u32>, RowError> {
    let (start, end) = match points {
        CodePoints::Single(code_point) => (code_point, code_point),
        CodePoints::Span(start, end) => (start, end),
    };
    if start >= CODE_POINT_LIMIT || end >= CODE_POINT_LIMIT {
        return Err(RowError::CodePoint);
    }
    if start > end {
        return Err(RowError::Reversed);
    }
    let Ok(value) = u32::try_from(value) else {
        return Err(RowError::Value);
    };
    match points {
        CodePoints::Single(code_point) => Ok(Write::One(code_point, value)),
        CodePoints::Span(start, end) => Ok(Write::Range(start..=end, value)),
    }
}

/// Returns the line without its comment, which starts at the first `#`, and without leading and
/// trailing blanks.
pub fn content_of(line: &[u8]) -> &[u8] {
    trimmed(before(b'#', line))
}

/// Returns the write of a line, or `None` if the line is blank or a comment.
///
/// # Errors
/// Returns what is wrong with the line, by the first of the tests in [`RowError`].
pub fn row_of(line: &[u8]) -> Result<Option<Write<u32>>, RowError> {
    let content = content_of(line);
    if content.is_empty() {
        return Ok(None);
    }
    let Some(points) = code_points_of(trimmed(before(b';', content))) else {
        return Err(RowError::NotARow);
    };
    let Some(value) = decimal_number(trimmed(after(b';', content))) else {
        return Err(RowError::NotARow);
    };
    let write = row_of_numbers(points, value)?;
    Ok(Some(write))
}
