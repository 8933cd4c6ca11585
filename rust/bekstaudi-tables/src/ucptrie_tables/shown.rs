//! What a table is, as comments and rows.

use crate::host::*;
use crate::support::AllocError;
use crate::support::prelude::*;
use crate::ucptab_table::pattern::Number::{Decimal, Hexadecimal};
use crate::ucptab_table::pattern::push_pattern;
use crate::ucptab_table::text::{answers_text, ranges_text};
use crate::ucptrie_tables::sizes::bounds_of;
use crate::ucptrie_tables::source::type_name;
use crate::ucptrie_tables::table::Table;

/// The lines about the header.
const HEADER: &str = "\
type: @
value width: % bits
high start: %
shifted12 high start: %
index3 null offset: %
data null offset: %
null value: %
error value: %
";

/// Appends the lines about the header.
fn push_header(text: &mut String, table: &Table) -> Result<(), AllocError> {
    let (header, _, _) = table.trie.parts();
    let numbers = [
        Decimal(table.width.bits() as usize),
        Hexadecimal(header.high_start),
        Hexadecimal(header.shifted12_high_start as u32),
        Hexadecimal(header.index3_null_offset as u32),
        Hexadecimal(header.data_null_offset),
        Decimal(header.null_value as usize),
        Decimal(table.trie.error_value() as usize),
    ];
    push_pattern(text, HEADER, type_name(header.trie_type), &numbers)
}

/// The lines about the cells, and whether the table is coherent.
const CELLS: &str = "\
index cells: %, bound %
data cells: %, bound %
coherent: @
";

/// Appends how many cells the table has, the bound on each count, and whether the table is
/// coherent.
fn push_cells(text: &mut String, table: &Table) -> Result<(), AllocError> {
    let (_, index, values) = table.trie.parts();
    let bounds = bounds_of(&table.trie)?;
    let coherent = if table.trie.is_coherent() {
        "yes"
    } else {
        "no"
    };
    let numbers = [
        Decimal(index.len()),
        Decimal(bounds.index),
        Decimal(values.len()),
        Decimal(bounds.data),
    ];
    push_pattern(text, CELLS, coherent, &numbers)
}

/// Returns what a table is, in lines.
fn about(table: &Table) -> Result<String, AllocError> {
    let mut about = String::new();
    push_header(&mut about, table)?;
    push_cells(&mut about, table)?;
    Ok(about)
}

/// Appends a comment: `# `, the text and a line feed.
fn push_comment(text: &mut String, comment: &str) -> Result<(), AllocError> {
    writeln!(text, "# {comment}")
}

/// Appends each line as a comment. A line ends with a line feed.
pub(crate) fn push_comments(text: &mut String, lines: &str) -> Result<(), AllocError> {
    let mut rest = lines;
    while let Some((line, others)) = rest.split_once('\n') {
        push_comment(text, line)?;
        rest = others;
    }
    Ok(())
}

/// Returns what a table is, as a table in `ucptab`'s form: comments, and a row for each of its
/// ranges.
///
/// The comments have the fields of the header, the number of cells beside the most that a trie
/// built of the same values has, and whether the table is coherent.
///
/// # Errors
/// Returns [`AllocError`] if an allocation fails.
pub fn shown(table: &Table) -> Result<String, AllocError> {
    let about = about(table)?;
    let mut text = String::new();
    push_comments(&mut text, &about)?;
    let ranges = ranges_text(&table.trie)?;
    text.try_push_str(&ranges)?;
    Ok(text)
}

/// Returns the lines of the asked numbers, in order, as `ucptab` prints them.
///
/// # Errors
/// Returns [`AllocError`] if an allocation fails.
pub fn answered(table: &Table, asked: &[u32]) -> Result<String, AllocError> {
    answers_text(asked, |n| table.trie.get32(n))
}
