//! The header of a table in source: its numbers, and the comment about its sizes.

use crate::host::*;
use crate::support::AllocError;
use crate::support::prelude::*;
use crate::ucptab_table::pattern::Number::{self, Decimal, Hexadecimal};
use crate::ucptab_table::pattern::push_pattern;
use crate::ucptrie_tables::source::type_name;
use crate::ucptrie_tables::table::Table;
use crate::ucptrie_tables::width::ValueWidth;
use bekstaudi::codepointtrie::TrieType;

/// Returns ICU's number of a type (UCPTRIE_TYPE_FAST, _SMALL).
pub(crate) fn type_code(trie_type: TrieType) -> u8 {
    match trie_type {
        TrieType::Fast => 0,
        TrieType::Small => 1,
    }
}

/// Returns the number of bytes in so many values, of which each has at most four.
fn data_size(len: usize, width: ValueWidth) -> usize {
    len * width.bytes()
}

/// The comment about the trie and its sizes.
const SIZES: &str = "\
// Made by ucptrie: a @ code point trie, with values of % bits.
// Index: % cells, % bytes. Data: % cells, % bytes.
";

/// Appends a comment about the trie and its sizes.
pub(crate) fn push_sizes(text: &mut String, table: &Table) -> Result<(), AllocError> {
    let (header, index, values) = table.trie.parts();
    let numbers = [
        Decimal(table.width.bits() as usize),
        Decimal(index.len()),
        Decimal(index.len() * 2),
        Decimal(values.len()),
        Decimal(data_size(values.len(), table.width)),
    ];
    push_pattern(text, SIZES, type_name(header.trie_type), &numbers)
}

/// Returns the numbers of the header in the order of ICU's struct and of TOML: lengths, the high
/// start in two forms, type and width, null blocks and the null value.
pub(crate) fn header_numbers(table: &Table) -> [Number; 9] {
    let (header, index, values) = table.trie.parts();
    [
        Decimal(index.len()),
        Decimal(values.len()),
        Hexadecimal(header.high_start),
        Hexadecimal(header.shifted12_high_start as u32),
        Decimal(type_code(header.trie_type) as usize),
        Decimal(table.width.code() as usize),
        Hexadecimal(header.index3_null_offset as u32),
        Hexadecimal(header.data_null_offset),
        Hexadecimal(header.null_value),
    ]
}
