//! The null value and the error value of a table, stated in comments among its rows.

use crate::host::*;
use crate::support::AllocError;
use crate::support::prelude::*;
use crate::ucd_files::names::short_decimal;
use crate::ucptab_table::input::first_line;
use crate::ucptab_table::text::ranges_text;
use bekstaudi::codepointtrie::CodePointTrie;

/// The values that comments among rows state. A value is `None` if no comment states it.
#[derive(Clone, Copy, Debug, PartialEq, Eq)]
pub struct StatedValues {
    /// The null value.
    pub null: Option<u32>,
    /// The value of each number above 0x10FFFF.
    pub error: Option<u32>,
}

/// Returns the number after a mark at the start of a line, in 1 to 10 decimal digits and of at most
/// 32 bits, or `None` for any other line.
fn number_after(mark: &[u8], line: &[u8]) -> Option<u32> {
    short_decimal(line.strip_prefix(mark)?)
}

/// Returns the values that comments among rows state: the null value by `# null value: N`, and the
/// error value by `# error value: N`, with N in 1 to 10 decimal digits and of at most 32 bits. The
/// first comment that states a value counts.
pub fn stated_values(rows: &[u8]) -> StatedValues {
    let mut null = None;
    let mut error = None;
    let mut rest = rows;
    while let Some((line, after)) = first_line(rest) {
        null = null.or(number_after(b"# null value: ".as_slice(), line));
        error = error.or(number_after(b"# error value: ".as_slice(), line));
        rest = after;
    }
    StatedValues { null, error }
}

/// Appends the comment that states a number under a name.
fn push_stating_line(text: &mut String, name: &str, number: u32) -> Result<(), AllocError> {
    writeln!(text, "# {name}: {number}")
}

/// Returns the comments that state the null value and the error value of a trie.
fn stating_text(trie: &CodePointTrie<'_, u32>) -> Result<String, AllocError> {
    let (header, _, _) = trie.parts();
    let mut text = String::new();
    push_stating_line(&mut text, "null value", header.null_value)?;
    push_stating_line(&mut text, "error value", trie.error_value())?;
    Ok(text)
}

/// Returns the rows of a trie, one for each of its ranges, after the comments that state its null
/// value and its error value.
pub(crate) fn rows_text(trie: &CodePointTrie<'_, u32>) -> Result<String, AllocError> {
    let mut text = stating_text(trie)?;
    let ranges = ranges_text(trie)?;
    text.try_push_str(&ranges)?;
    Ok(text)
}
