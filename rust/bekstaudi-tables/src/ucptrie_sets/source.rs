//! What the sources in C and in Rust have in common.

use crate::host::*;
use crate::support::AllocError;
use crate::support::prelude::*;
use crate::ucptab_table::pattern::Number::Decimal;
use crate::ucptab_table::pattern::push_pattern;
use bekstaudi::codepointinvlist::CodePointInversionList;
use bekstaudi::codepointinvlist::FrozenCodePointSet;

/// How many cells a line has.
const CELLS_IN_LINE: usize = 8;

/// The first line of source. Each `%` is replaced by a number.
const TITLE: &str = "// Made by ucptrie: a set of % code points in % ranges.\n";

/// Returns the first line of source, a comment with the number of ranges.
pub(crate) fn title_of(set: &CodePointInversionList<'_>) -> Result<String, AllocError> {
    let sizes = [Decimal(set.size()), Decimal(set.get_range_count())];
    let mut text = String::new();
    push_pattern(&mut text, TITLE, "", &sizes)?;
    Ok(text)
}

/// Returns the frozen set.
pub(crate) fn frozen_of(
    set: &CodePointInversionList<'_>,
) -> Result<FrozenCodePointSet, AllocError> {
    let Ok(frozen) = FrozenCodePointSet::try_freeze(set) else {
        return Err(AllocError);
    };
    Ok(frozen)
}

/// Returns the last block that has an offset in the words of a frozen set. Their first word has the
/// number of offsets.
pub(crate) fn last_block_of(words: &[u64]) -> usize {
    let Some(first) = words.first() else {
        return 0;
    };
    ((*first % 0x1_0000_0000) as usize).saturating_sub(1)
}

/// Appends what precedes the cell `i` of an array: nothing, a comma and a space, or a comma and a
/// new line.
fn push_gap(text: &mut String, i: usize) -> Result<(), AllocError> {
    if i == 0 {
        return Ok(());
    }
    text.try_push_str(if i % CELLS_IN_LINE == 0 { ",\n" } else { ", " })
}

/// Appends a number in hexadecimal digits in lower case, behind `0x`.
fn push_number(text: &mut String, number: u64) -> Result<(), AllocError> {
    write!(text, "0x{number:x}")
}

/// Appends a cell of an array: eight to a line, with commas between them. `i` is its index.
fn push_cell(text: &mut String, i: usize, cell: u64) -> Result<(), AllocError> {
    push_gap(text, i)?;
    push_number(text, cell)
}

/// Appends the boundaries of a set.
pub(crate) fn push_boundaries(
    text: &mut String,
    set: &CodePointInversionList<'_>,
) -> Result<(), AllocError> {
    let boundaries = set.as_inversion_list();
    for (i, boundary) in boundaries.iter().enumerate() {
        push_cell(text, i, u64::from(u32::from(boundary)))?;
    }
    Ok(())
}

/// Appends words of 64 bits.
pub(crate) fn push_words(text: &mut String, words: &[u64]) -> Result<(), AllocError> {
    for (i, word) in words.iter().enumerate() {
        push_cell(text, i, *word)?;
    }
    Ok(())
}
