//! The numbers that words and texts ask for.

use crate::host::*;
use crate::support::AllocError;
use crate::support::prelude::*;
use crate::ucptab_table::input::first_line;
use crate::ucptab_table::rows::{CodePoints, code_points_of, content_of};
use bekstaudi::zerovec::CODE_POINT_LIMIT;

/// Why a text asks for no numbers.
#[derive(Clone, Copy, Debug, PartialEq, Eq)]
pub enum AskedError {
    /// The first line, counted from 1, that is neither `HEX` nor `HEX..HEX`.
    Line(u64),
    /// An allocation failed.
    Memory,
}

/// Appends the numbers of a range, and returns whether it is one of code points.
fn push_span(asked: &mut Vec<u32>, first: u32, last: u32) -> Result<bool, AllocError> {
    if first > last || last >= CODE_POINT_LIMIT {
        return Ok(false);
    }
    for number in first..last + 1 {
        asked.try_push(number)?;
    }
    Ok(true)
}

/// Appends the numbers that a field asks for: `HEX`, a number, or `HEX..HEX`, a range of code
/// points, both ends inclusive. Returns whether it is one of these.
///
/// # Errors
/// Returns [`AllocError`] if an allocation fails.
pub fn push_asked(asked: &mut Vec<u32>, field: &[u8]) -> Result<bool, AllocError> {
    match code_points_of(field) {
        Some(CodePoints::Single(number)) => {
            asked.try_push(number)?;
            Ok(true)
        }
        Some(CodePoints::Span(first, last)) => push_span(asked, first, last),
        None => Ok(false),
    }
}

/// Appends the numbers that a line asks for: none if it is blank or a comment, which starts at `#`.
/// Returns whether it is such a line, or one with a field that asks for numbers.
fn push_line(asked: &mut Vec<u32>, line: &[u8]) -> Result<bool, AllocError> {
    let field = content_of(line);
    if field.is_empty() {
        return Ok(true);
    }
    push_asked(asked, field)
}

/// Appends the numbers that a text asks for, one field in each line. A comment starts at `#`, and
/// blank lines ask for nothing.
///
/// # Errors
/// Returns [`AskedError::Line`] for the first line with another field, and [`AskedError::Memory`]
/// if an allocation fails.
pub fn push_asked_lines(asked: &mut Vec<u32>, text: &[u8]) -> Result<(), AskedError> {
    let mut number = 0u64;
    let mut rest = text;
    while let Some((line, after)) = first_line(rest) {
        number += 1;
        rest = after;
        match push_line(asked, line) {
            Ok(true) => {}
            Ok(false) => return Err(AskedError::Line(number)),
            Err(_) => return Err(AskedError::Memory),
        }
    }
    Ok(())
}
