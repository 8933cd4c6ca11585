//! Reads a table: its bytes, its lines and its rows.

use crate::host::*;
use crate::support::prelude::*;
use crate::ucptab_table::error::TableError;
use crate::ucptab_table::rows::{position_or_len, row_of};
use crate::ucptab_table::streams::{Failed, Source};
use bekstaudi::codepointtrie::Write;

/// Reads all bytes that are left.
///
/// # Errors
/// Returns [`TableError::Read`] if a read fails, and [`TableError::Memory`] if an allocation fails.
pub fn read_all<S: Source>(reader: &mut S) -> Result<Vec<u8>, TableError> {
    let mut all = Vec::new();
    let mut buf = [0u8; 4096];
    for turn in 0..u64::MAX {
        let n = match reader.read(&mut buf) {
            Ok(n) => n,
            Err(Failed) => return Err(TableError::Read),
        };
        if n == 0 {
            return Ok(all);
        }
        if all.try_extend_from_slice(&buf[..n]).is_err() {
            return Err(TableError::Memory);
        }
    }
    // Each turn adds a byte, and a `Vec` has fewer bytes than there are turns.
    unreachable!()
}

/// Returns the line without one carriage return at its end, if it has one.
fn strip_carriage_return(line: &[u8]) -> &[u8] {
    match line {
        [front @ .., b'\r'] => front,
        _ => line,
    }
}

/// Returns the first line and what follows its line feed, or `None` if there is no line.
pub fn first_line(input: &[u8]) -> Option<(&[u8], &[u8])> {
    let place = position_or_len(b'\n', input);
    if place < input.len() {
        return Some((strip_carriage_return(&input[..place]), &input[place + 1..]));
    }
    if input.is_empty() {
        return None;
    }
    Some((input, &[]))
}

/// An iterator over the lines of an input, without their line ends. [`lines`] returns it.
pub struct InputLines<'a> {
    rest: &'a [u8],
}

impl<'a> Iterator for InputLines<'a> {
    type Item = &'a [u8];

    fn next(&mut self) -> Option<&'a [u8]> {
        let (line, rest) = first_line(self.rest)?;
        self.rest = rest;
        Some(line)
    }
}

/// Returns an iterator over the lines of an input, without their line ends.
pub fn lines(input: &[u8]) -> InputLines<'_> {
    InputLines { rest: input }
}

/// Returns the line of this number, counted from 1, without its line end, or `None` if there are
/// fewer lines.
pub fn line_at(input: &[u8], number: u64) -> Option<&[u8]> {
    let mut left = number;
    let mut others = input;
    while let Some((line, after)) = first_line(others) {
        if left <= 1 {
            return Some(line);
        }
        left -= 1;
        others = after;
    }
    None
}

/// Returns the writes of all rows of the table, in order.
///
/// # Errors
/// Returns [`TableError::Row`] for the first line that has a fault, counted from 1, and
/// [`TableError::Memory`] if an allocation fails.
pub fn read_rows(input: &[u8]) -> Result<Vec<Write<u32>>, TableError> {
    let mut writes = Vec::new();
    let mut number = 0u64;
    let mut rest = input;
    while let Some((line, after)) = first_line(rest) {
        number += 1;
        rest = after;
        match row_of(line) {
            Ok(None) => {}
            Ok(Some(write)) => {
                if writes.try_push(write).is_err() {
                    return Err(TableError::Memory);
                }
            }
            Err(fault) => return Err(TableError::Row(number, fault)),
        }
    }
    Ok(writes)
}

/// Returns the writes of all rows of the table, as `read_rows` does, and shows the reader the line
/// that is not one.
///
/// # Errors
/// Returns the errors of [`read_rows`].
pub fn read_shown_rows<S: Source>(
    input: &[u8],
    reader: &mut S,
) -> Result<Vec<Write<u32>>, TableError> {
    let rows = read_rows(input);
    if let Err(TableError::Row(number, fault)) = rows {
        reader.note_fault(number, line_at(input, number).unwrap_or(&[]), fault);
    }
    rows
}
