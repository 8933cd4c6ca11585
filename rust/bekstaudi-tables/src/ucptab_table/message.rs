//! Messages about lines: where a line is, what was expected of it, and the line itself.

use crate::host::*;
use crate::support::AllocError;
use crate::support::prelude::*;
use crate::ucptab_table::error::RowError;
use crate::ucptab_table::hint::hint;
use crate::ucptab_table::input::line_at;

/// How many bytes of a line a message shows.
const SHOWN: usize = 60;

/// Returns whether a byte is shown as itself: whether it is a printing ASCII character other than
/// `"` and `\`.
fn is_plain(byte: u8) -> bool {
    (0x20..=0x7e).contains(&byte) && byte != b'"' && byte != b'\\'
}

/// Appends a byte: itself, or `\x` and two hexadecimal digits.
fn push_shown(text: &mut String, byte: u8) -> Result<(), AllocError> {
    if is_plain(byte) {
        text.try_push(char::from(byte))
    } else {
        write!(text, "\\x{byte:02x}")
    }
}

/// Appends the bytes as they are shown.
fn push_bytes(text: &mut String, bytes: &[u8]) -> Result<(), AllocError> {
    for byte in bytes {
        push_shown(text, *byte)?;
    }
    Ok(())
}

/// Returns the first bytes of a line that has so many.
fn start_of(line: &[u8], count: usize) -> &[u8] {
    &line[..count]
}

/// Appends a line between quotes: its first 60 bytes, and `..` after the quote if it has more.
///
/// # Errors
/// Returns [`AllocError`] if an allocation fails.
pub fn push_quoted(text: &mut String, line: &[u8]) -> Result<(), AllocError> {
    text.try_push('"')?;
    if line.len() > SHOWN {
        push_bytes(text, start_of(line, SHOWN))?;
        text.try_push_str("\"..")
    } else {
        push_bytes(text, line)?;
        text.try_push('"')
    }
}

/// Returns the message about a line: `INPUT:NUMBER: expected EXPECTED, found "LINE"`.
///
/// # Errors
/// Returns [`AllocError`] if an allocation fails.
pub fn line_message(
    input: &str,
    number: u64,
    expected: &str,
    line: &[u8],
) -> Result<String, AllocError> {
    let mut text = String::new();
    write!(text, "{input}:{number}: expected {expected}, found ")?;
    push_quoted(&mut text, line)?;
    Ok(text)
}

/// Returns the message about a line that has this fault as a row: [`line_message`] of what is
/// expected. If the line does not have the form of a row, the message ends with `: HINT`.
///
/// # Errors
/// Returns [`AllocError`] if an allocation fails.
pub fn row_line_message(
    input: &str,
    number: u64,
    fault: RowError,
    line: &[u8],
) -> Result<String, AllocError> {
    let mut text = line_message(input, number, fault.expected(), line)?;
    if matches!(fault, RowError::NotARow) {
        text.try_push_str(": ")?;
        text.try_push_str(hint(line))?;
    }
    Ok(text)
}

/// Returns the message about the fault of the row with this number, counted from 1.
///
/// # Errors
/// Returns [`AllocError`] if an allocation fails.
pub fn row_message(
    input: &str,
    bytes: &[u8],
    number: u64,
    fault: RowError,
) -> Result<String, AllocError> {
    let line = line_at(bytes, number).unwrap_or(&[]);
    row_line_message(input, number, fault, line)
}
