//! Where a value comes from that has more bits than the asked width.
use crate::clap::ArgMatches;
use crate::host::*;
use crate::support::AllocError;
use crate::support::prelude::*;
use crate::ucd_files::names::Numbering;
use crate::ucd_files::statement::{Statement, statement_of};
use crate::ucptab_table::input::lines;
use crate::ucptab_table::rows::row_of;
use crate::ucptrie_inputs::error::{Error, said};
use crate::ucptrie_inputs::number;
use crate::ucptrie_inputs::numbering::UnicodeFile;
use crate::ucptrie_tables::table::Table;
use crate::ucptrie_tables::width::ValueWidth;
use bekstaudi::codepointtrie::Write;
use bekstaudi::zerovec::CODE_POINT_LIMIT;

/// Returns whether a write gives this value.
fn gives(write: &Write<u32>, value: u32) -> bool {
    match write {
        Write::One(_, given) | Write::Range(_, given) => *given == value,
    }
}

/// Returns whether a line is a row with this value.
fn is_row_with(line: &[u8], value: u32) -> bool {
    match row_of(line) {
        Ok(Some(write)) => gives(&write, value),
        _ => false,
    }
}

/// Returns the number of the first row with this value, counted from 1.
pub fn row_with(rows: &[u8], value: u32) -> Option<u64> {
    let mut number = 0u64;
    for line in lines(rows) {
        number = number.saturating_add(1);
        if is_row_with(line, value) {
            return Some(number);
        }
    }
    None
}

/// Returns whether a line of a file, after the line `previous`, gives this value.
fn says(
    file: &UnicodeFile<'_>,
    numbering: Numbering<'_>,
    previous: &[u8],
    line: &[u8],
    value: u32,
) -> bool {
    match statement_of(file.columns, numbering, previous, line) {
        Ok(Some(Statement::Missing(write) | Statement::Explicit(write))) => gives(&write, value),
        _ => false,
    }
}

/// Returns the number of the first line of a file that gives this value, counted from 1.
pub fn line_with(file: &UnicodeFile<'_>, numbering: Numbering<'_>, value: u32) -> Option<u64> {
    let mut number = 0u64;
    let mut previous: &[u8] = &[];
    for line in lines(file.bytes) {
        number = number.saturating_add(1);
        if says(file, numbering, previous, line, value) {
            return Some(number);
        }
        previous = line;
    }
    None
}

/// Returns the option that gives this value, or else the name of the input.
fn giver<'n>(matches: &ArgMatches<'_>, name: &'n str, value: u32) -> &'n str {
    if number(matches, "default") == Some(value) {
        "--default"
    } else if number(matches, "error") == Some(value) {
        "--error"
    } else {
        name
    }
}

/// Appends the widths that a value fits.
fn push_wider(line: &mut String, value: u32, width: ValueWidth) -> Result<(), AllocError> {
    write!(line, " has more than {width}: give --width ")?;
    line.try_push_str(if value < 0x10000 { "16 or 32" } else { "32" })
}

/// Returns the line about a value that is too wide. `place` is the line that gives it.
fn wide_line(
    giver: &str,
    place: Option<u64>,
    value: u32,
    width: ValueWidth,
) -> Result<String, AllocError> {
    let mut line = String::new();
    line.try_push_str(giver)?;
    if let Some(number) = place {
        write!(line, ":{number}")?;
    }
    write!(line, ": the value {value}")?;
    push_wider(&mut line, value, width)?;
    Ok(line)
}

/// Returns the fault of a value that has more bits than the asked width. `place` is the number of
/// the line that gives it, in an input of this name. Without such a line it is from an argument.
pub fn too_wide(
    matches: &ArgMatches<'_>,
    name: &str,
    place: Option<u64>,
    value: u32,
    width: ValueWidth,
) -> Error {
    let giver = match place {
        Some(_) => name,
        None => giver(matches, name, value),
    };
    said(wide_line(giver, place, value, width))
}

/// Returns the first code point with this value.
fn point_with(table: &Table, value: u32) -> Option<u32> {
    (0..CODE_POINT_LIMIT).find(|c| table.trie.get32(*c) == value)
}

/// Returns the line about a value of a code point that is too wide.
fn wide_point_line(
    name: &str,
    c: u32,
    value: u32,
    width: ValueWidth,
) -> Result<String, AllocError> {
    let mut line = String::new();
    write!(line, "{name}: the value {value} of U+{c:04X}")?;
    push_wider(&mut line, value, width)?;
    Ok(line)
}

/// Returns the fault of a value in a table that has more bits than the asked width. `name` is what
/// the table was read from. If no code point has the value, it is the error value, which an
/// argument may give.
pub fn too_wide_in(
    matches: &ArgMatches<'_>,
    name: &str,
    table: &Table,
    value: u32,
    width: ValueWidth,
) -> Error {
    match point_with(table, value) {
        Some(c) => said(wide_point_line(name, c, value, width)),
        None => too_wide(matches, name, None, value, width),
    }
}
