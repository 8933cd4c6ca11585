//! Builds a whole trie of numbers.

use crate::icu_trie::header::{CodePointTrieHeader, TrieType};
use crate::icu_trie_builder::data::{PlacedData, place_data};
use crate::icu_trie_builder::error::BuildError;
use crate::icu_trie_builder::index::build_index;
use crate::icu_trie_builder::map::number_map::NumberMap;
use crate::support::prelude::*;

/// The parts of a trie whose values are numbers.
pub(crate) struct NumberTrie {
    /// The header of the trie.
    pub(crate) header: CodePointTrieHeader,
    /// The index cells, which lead from a code point to its position in `values`.
    pub(crate) index: Vec<u16>,
    /// The data. The last two cells are the high value and the error value.
    pub(crate) values: Vec<u32>,
}

/// Builds the trie of a map, given the number of each code point. `error` is the number for
/// everything above 0x10FFFF. The null value in the header is that of the null block, or `default`
/// if there is none.
///
/// # Errors
///
/// `TooLarge` at the first offset that does not fit its cell, and `Memory` if an allocation fails.
pub(crate) fn build_numbers(
    numbers: &NumberMap,
    error: u32,
    default: u32,
    trie_type: TrieType,
) -> Result<NumberTrie, BuildError> {
    let high_start = numbers.high_start();
    let PlacedData {
        values,
        fast,
        small,
        null,
    } = place_data(numbers, error, default, trie_type, high_start)?;
    let built = build_index(trie_type, high_start, &fast, &small, null.offset as usize)?;
    let header = CodePointTrieHeader {
        high_start: high_start as u32,
        shifted12_high_start: high_start.div_ceil(0x1000) as u16,
        index3_null_offset: built.null_offset,
        data_null_offset: null.offset,
        null_value: null.value,
        trie_type,
    };
    Ok(NumberTrie {
        header,
        index: built.cells,
        values,
    })
}
