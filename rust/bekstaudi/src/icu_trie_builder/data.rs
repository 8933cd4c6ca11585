//! The data of a trie: the first 128 cells, the distinct blocks of 64 and of 16, the high value and
//! the error value.
//!
//! - `map_blocks`: places the blocks of the map
//! - `filled_blocks`: shares blocks of 16 with a block of 64 if both have one number throughout
//! - `null_block`: the null block, which a walk knows by its offset; `used_numbers` suggests a
//!   frequent number for it

use crate::icu_trie::header::TrieType;
use crate::icu_trie_builder::data::map_blocks::{MAX_DATA_OFFSET, MapBlocks};
use crate::icu_trie_builder::data::null_block::{NullBlock, place_null};
use crate::icu_trie_builder::error::BuildError;
use crate::icu_trie_builder::lengths::{FAST_BLOCK, SMALL_BLOCK};
use crate::support::prelude::*;

mod filled_blocks;
mod map_blocks;
mod null_block;
mod used_numbers;

use crate::icu_trie_builder::compaction::cell_store::CellStore;
use crate::icu_trie_builder::map::number_map::NumberMap;
use crate::icu_zerovec::CODE_POINT_LIMIT;
use crate::support::AllocError;

/// The data offset that stands for "no null block". No block can have it.
const NO_DATA_NULL_OFFSET: u32 = 0xfffff;

/// The cells of the data, and the offsets of the blocks in them.
pub(crate) struct PlacedData {
    /// The cells. The last two are the high value and the error value.
    pub(crate) values: Vec<u32>,
    /// The offset of each block of 64 below the fast limit.
    pub(crate) fast: Vec<u32>,
    /// The offset of each block of 16 from the fast limit up to the high start.
    pub(crate) small: Vec<u32>,
    /// The null block.
    pub(crate) null: NullBlock,
}

/// Returns the offsets of all blocks of 64. `rest` has those from the third block on.
#[inline]
fn with_first_offsets(rest: &[u32]) -> Result<Vec<u32>, AllocError> {
    let mut fast = Vec::with_room(rest.len() + 2)?;
    fast.try_push(0)?;
    fast.try_push(FAST_BLOCK as u32)?;
    fast.try_extend_from_slice(rest)?;
    Ok(fast)
}

/// Appends the high value to the data, unless it is already the last cell.
#[inline]
fn push_high(values: &mut Vec<u32>, high: u32) -> Result<(), AllocError> {
    if values[values.len() - 1] == high {
        return Ok(());
    }
    values.try_push(high)?;
    Ok(())
}

/// Appends the high value and the error value to the data, unless they are already the last two
/// cells.
#[inline]
fn push_end(values: &mut Vec<u32>, high: u32, error: u32) -> Result<(), AllocError> {
    let len = values.len();
    if values[len - 2] == high && values[len - 1] == error {
        return Ok(());
    }
    push_high(values, high)?;
    values.try_push(error)?;
    Ok(())
}

/// Returns the high value, which is the number of the last code point. If the high start is
/// 0x110000, no look-up reads the high value, and it is a cell that the data already has.
#[inline]
fn high_for(values: &[u32], high_start: usize, last: u32, error: u32) -> u32 {
    let len = values.len();
    if high_start < CODE_POINT_LIMIT as usize {
        last
    } else if values[len - 1] == error {
        values[len - 2]
    } else {
        values[len - 1]
    }
}

/// Appends the high value and the error value to the data, as far as they are not already its last
/// cells. `last` is the number of the last code point.
#[inline]
fn finish(
    values: &mut Vec<u32>,
    high_start: usize,
    last: u32,
    error: u32,
) -> Result<(), AllocError> {
    let high = high_for(values, high_start, last, error);
    push_end(values, high, error)?;
    Ok(())
}

/// Returns the null block. If there is none, the result has an offset that no block has.
#[inline]
fn null_or(null: Option<NullBlock>, default: u32) -> NullBlock {
    match null {
        Some(null) => null,
        None => NullBlock {
            offset: NO_DATA_NULL_OFFSET,
            value: default,
        },
    }
}

/// Makes the data of a map, given the number of each code point. From `high_start` on all code
/// points must have the number of the last one. If no block has one number throughout, the null
/// value is `default`.
///
/// # Errors
///
/// `TooLarge` at the first block of 16 whose offset has more than 18 bits.
pub(crate) fn place_data(
    numbers: &NumberMap,
    error: u32,
    default: u32,
    trie_type: TrieType,
    high_start: usize,
) -> Result<PlacedData, BuildError> {
    let limit = trie_type.fast_limit() as usize;
    let small_len = high_start.saturating_sub(limit) / SMALL_BLOCK;
    let mut first = Vec::new();
    numbers.copy_block(2 * FAST_BLOCK, 0, &mut first)?;
    let mut store = CellStore::new(first);
    let blocks = MapBlocks {
        map: numbers,
        size: FAST_BLOCK,
    };
    let rest = blocks.place(&mut store, 2, limit / FAST_BLOCK - 2)?;
    let fast = with_first_offsets(&rest)?;
    let blocks = MapBlocks {
        map: numbers,
        size: SMALL_BLOCK,
    };
    let mut small = blocks.place(&mut store, limit / SMALL_BLOCK, small_len)?;
    let mut values = store.into_cells();
    let null = place_null(&mut values, &fast, &mut small, MAX_DATA_OFFSET)?;
    finish(&mut values, high_start, numbers.last(), error)?;
    Ok(PlacedData {
        values,
        fast,
        small,
        null: null_or(null, default),
    })
}
