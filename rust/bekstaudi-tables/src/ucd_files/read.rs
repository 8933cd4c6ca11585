//! What all lines of a file say.

use crate::host::*;
use crate::support::AllocError;
use crate::support::prelude::*;
use crate::ucd_files::error::FileError;
use crate::ucd_files::fields::ends_in_first;
use crate::ucd_files::names::Numbering;
use crate::ucd_files::statement::{Columns, Statement, statement_of};
use crate::ucptab_table::input::first_line;
use bekstaudi::codepointtrie::Write;

/// Returns whether a line gives the first code point of a range in `UnicodeData.txt`.
fn is_open(columns: Columns<'_>, line: &[u8]) -> bool {
    match columns {
        Columns::UnicodeData(_) => ends_in_first(line),
        _ => false,
    }
}

/// Returns what the lines of a file say, in order.
///
/// # Errors
/// Returns [`FileError::Line`] for the first line with a fault, counted from 1,
/// [`FileError::Unfinished`] if the file ends in the middle of a range of `UnicodeData.txt`, and
/// [`FileError::Memory`] if an allocation fails.
pub fn read_statements(
    input: &[u8],
    columns: Columns<'_>,
    numbering: Numbering<'_>,
) -> Result<Vec<Statement>, FileError> {
    let mut said = Vec::new();
    let mut number = 0u64;
    let mut rest = input;
    let mut previous: &[u8] = &[];
    while let Some((line, after)) = first_line(rest) {
        number += 1;
        rest = after;
        match statement_of(columns, numbering, previous, line) {
            Ok(None) => {}
            Ok(Some(statement)) => {
                if said.try_push(statement).is_err() {
                    return Err(FileError::Memory);
                }
            }
            Err(fault) => return Err(FileError::Line(number, fault)),
        }
        previous = line;
    }
    if is_open(columns, previous) {
        return Err(FileError::Unfinished);
    }
    Ok(said)
}

/// Appends a write.
fn pushed(writes: &mut Vec<Write<u32>>, write: Write<u32>) -> Result<(), AllocError> {
    match writes.try_push(write) {
        Ok(()) => Ok(()),
        Err(_) => Err(AllocError),
    }
}

/// Appends a statement's write to those of its kind.
fn push_write(
    missing: &mut Vec<Write<u32>>,
    explicit: &mut Vec<Write<u32>>,
    statement: Statement,
) -> Result<(), AllocError> {
    match statement {
        Statement::Missing(write) => pushed(missing, write),
        Statement::Explicit(write) => pushed(explicit, write),
    }
}

/// Returns the writes of statements: first those of `@missing` lines, then all others, each in
/// order.
///
/// # Errors
/// Returns [`AllocError`] if an allocation fails.
pub fn writes_of(statements: Vec<Statement>) -> Result<Vec<Write<u32>>, AllocError> {
    let mut missing = Vec::new();
    let mut explicit = Vec::new();
    for statement in statements {
        push_write(&mut missing, &mut explicit, statement)?;
    }
    missing.try_append(&mut explicit)?;
    Ok(missing)
}

/// Returns the writes of a file: those of its `@missing` lines, then those of its other lines, each
/// in order. The last write that covers a code point gives its value.
///
/// # Errors
/// Returns [`FileError::Line`] for the first line with a fault, counted from 1,
/// [`FileError::Unfinished`] if the file ends in the middle of a range of `UnicodeData.txt`, and
/// [`FileError::Memory`] if an allocation fails.
pub fn read_writes(
    input: &[u8],
    columns: Columns<'_>,
    numbering: Numbering<'_>,
) -> Result<Vec<Write<u32>>, FileError> {
    let said = read_statements(input, columns, numbering)?;
    let writes = writes_of(said)?;
    Ok(writes)
}
