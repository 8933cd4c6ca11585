//! How a look-up goes, cell by cell.

use crate::host::*;
use crate::support::AllocError;
use crate::support::prelude::*;
use crate::ucptab_table::pattern::Number::Decimal;
use crate::ucptab_table::pattern::push_pattern;
use crate::ucptrie_tables::shown::{answered, push_comments};
use crate::ucptrie_tables::source::{index1_offset, type_name};
use crate::ucptrie_tables::table::Table;
use bekstaudi::codepointtrie::TrieType;

/// Appends the line about a cell: which array it is in, its index, its value, and what it is. An
/// untrusted trie may lack it.
fn push_cell(
    text: &mut String,
    array: &str,
    index: usize,
    value: Option<u32>,
    what: &str,
) -> Result<(), AllocError> {
    push_pattern(text, "@[%]", array, &[Decimal(index)])?;
    match value {
        Some(value) => push_pattern(text, " = %: ", "", &[Decimal(value as usize)])?,
        None => text.try_push_str(" is missing: ")?,
    }
    text.try_push_str(what)?;
    text.try_push('\n')
}

/// Appends the line about a cell of the index, and returns its value, or 0 if it is missing.
fn push_index(
    text: &mut String,
    table: &Table,
    index: usize,
    what: &str,
) -> Result<u16, AllocError> {
    let (_, cells, _) = table.trie.parts();
    let value = cells.get(index);
    push_cell(text, "index", index, value.map(u32::from), what)?;
    Ok(value.unwrap_or(0))
}

/// Appends the line about a cell of the data.
fn push_data(text: &mut String, table: &Table, index: usize, what: &str) -> Result<(), AllocError> {
    let (_, _, cells) = table.trie.parts();
    push_cell(text, "data", index, cells.get(index), what)
}

/// Appends the lines about the index-3 cells of a code point, and returns the offset of its block.
/// `third` is the index-2 cell.
fn push_block(text: &mut String, table: &Table, third: u16, c: u32) -> Result<u32, AllocError> {
    let part = (c >> 4) & 31;
    if third < 0x8000 {
        let place = usize::from(third) + part as usize;
        let block = push_index(text, table, place, "index-3, by bits 4 to 8")?;
        return Ok(u32::from(block));
    }
    // Eight offsets of 18 bits have nine cells, the first one for their upper bits.
    let group = usize::from(third & 0x7fff) + (part / 8 * 9) as usize;
    let upper = push_index(text, table, group, "index-3, upper bits of eight offsets")?;
    let place = group + 1 + (part & 7) as usize;
    let lower = push_index(text, table, place, "index-3, by bits 4 to 8")?;
    Ok(((u32::from(upper) << (2 + 2 * (part & 7))) & 0x30000) | u32::from(lower))
}

/// Appends the lines about the three stages of a look-up between the fast limit and the high start.
fn push_stages(text: &mut String, table: &Table, kind: TrieType, c: u32) -> Result<(), AllocError> {
    let first = (c >> 14) as usize + index1_offset(kind) as usize;
    let second = push_index(text, table, first, "index-1, by bits 14 to 20")?;
    let place = usize::from(second) + ((c >> 9) & 31) as usize;
    let third = push_index(text, table, place, "index-2, by bits 9 to 13")?;
    let block = push_block(text, table, third, c)?;
    let place = block as usize + (c & 15) as usize;
    push_data(text, table, place, "the value, by bits 0 to 3")
}

/// Appends the lines about the cells that the look-up of a number reads.
fn push_reads(text: &mut String, table: &Table, c: u32) -> Result<(), AllocError> {
    let (header, _, values) = table.trie.parts();
    let kind = header.trie_type;
    let count = values.len();
    if c > 0x10ffff {
        push_data(
            text,
            table,
            count.saturating_sub(1),
            "the error value, above 10FFFF",
        )
    } else if c < kind.fast_limit() {
        let block = push_index(
            text,
            table,
            (c >> 6) as usize,
            "fast index, by bits 6 to 15",
        )?;
        let place = usize::from(block) + (c & 63) as usize;
        push_data(text, table, place, "the value, by bits 0 to 5")
    } else if c >= header.high_start {
        push_data(
            text,
            table,
            count.saturating_sub(2),
            "the value from the high start on",
        )
    } else {
        push_stages(text, table, kind, c)
    }
}

/// Appends the lines about the look-up of a number.
fn push_lines(text: &mut String, table: &Table, c: u32) -> Result<(), AllocError> {
    let (header, _, _) = table.trie.parts();
    let (kind, limit) = (type_name(header.trie_type), header.trie_type.fast_limit());
    let high_start = header.high_start;
    write!(
        text,
        "{c:04X} in a {kind} trie: fast below {limit:X}, high from {high_start:X} on\n"
    )?;
    push_reads(text, table, c)
}

/// Appends the lines about the look-up of a number, as comments.
fn push_look_up(text: &mut String, table: &Table, c: u32) -> Result<(), AllocError> {
    let mut lines = String::new();
    push_lines(&mut lines, table, c)?;
    push_comments(text, &lines)
}

/// Returns how the look-up of each asked number goes, as comments, each before the line that
/// `answered` has for the number.
///
/// # Errors
/// Returns [`AllocError`] if an allocation fails.
pub fn explained(table: &Table, asked: &[u32]) -> Result<String, AllocError> {
    let mut text = String::new();
    for c in asked {
        push_look_up(&mut text, table, *c)?;
        let line = answered(table, &[*c])?;
        text.try_push_str(&line)?;
    }
    Ok(text)
}
