//! The index of a trie. It starts with the offsets of the blocks of 64 below the fast limit. For
//! the code points from there on, index-1, the index-3 blocks and index-2 follow.
//!
//! - `index3`, `index2`: place the index-3 and the index-2 blocks
//! - `packing`: the 18-bit form of an index-3 block

use crate::support::prelude::*;
mod index2;
mod index3;
mod packing;

use crate::icu_trie_builder::compaction::cell_store::CellStore;
use crate::icu_trie_builder::error::BuildError;
use crate::icu_trie_builder::index::index2::{place_index2, with_unread};
use crate::icu_trie_builder::index::index3::{NO_INDEX3_NULL_OFFSET, place_index3};
use crate::icu_trie_builder::lengths::INDEX_3_BLOCK;
use crate::icu_trie_core::header::TrieType;
use crate::icu_trie_core::impl_const::{
    CP_PER_INDEX_2_ENTRY, FAST_TYPE_DATA_BLOCK_LENGTH, SHIFT_1,
};
use crate::support::AllocError;

/// The number of code points that one index-1 cell covers.
const CP_PER_INDEX_1_ENTRY: usize = 1 << SHIFT_1;

/// The index of a trie, and the index-2 cell by which a walk recognises blocks of 512 that are null
/// throughout.
pub(crate) struct BuiltIndex {
    /// The fast index, followed by the cells for the code points from the fast limit on.
    pub(crate) cells: Vec<u16>,
    /// The index-2 cell, bit 15 included, of the blocks of 512 whose data offsets all are that of
    /// the null block, or 0x7fff if there is none.
    pub(crate) null_offset: u16,
}

/// Appends the fast index, which is the offsets of the blocks of 64, to `index`.
#[inline]
fn push_fast(index: &mut Vec<u16>, fast: &[u32]) -> Result<(), AllocError> {
    for offset in fast {
        index.try_push(*offset as u16)?;
    }
    Ok(())
}

/// Appends the index-1 cells to `index`. The index-2 blocks are at these positions, counted from
/// `start`.
#[inline]
fn push_index1(index: &mut Vec<u16>, start: usize, places: &[usize]) -> Result<(), AllocError> {
    for place in places {
        index.try_push((start + *place) as u16)?;
    }
    Ok(())
}

/// Appends the cells of the index-3 and index-2 blocks to `index`.
#[inline]
fn push_stored(index: &mut Vec<u16>, cells: &[u32]) -> Result<(), AllocError> {
    for cell in cells {
        index.try_push(*cell as u16)?;
    }
    Ok(())
}

/// Returns the cells as 32-bit numbers.
#[inline]
fn widened(cells: &[u16]) -> Result<Vec<u32>, AllocError> {
    let mut wide = Vec::with_room(cells.len())?;
    for cell in cells {
        wide.try_push(u32::from(*cell))?;
    }
    Ok(wide)
}

/// Returns true if all 32 offsets of block number `number` are `null`.
#[inline]
fn is_null(offsets: &[u32], null: usize, number: usize) -> bool {
    for i in 0..INDEX_3_BLOCK {
        if offsets[INDEX_3_BLOCK * number + i] as usize != null {
            return false;
        }
    }
    true
}

/// Returns the number of a block whose 32 offsets all are `null`, or `None` if there is none.
#[inline]
fn null_block(offsets: &[u32], null: usize) -> Option<usize> {
    for number in 0..offsets.len() / INDEX_3_BLOCK {
        if is_null(offsets, null, number) {
            return Some(number);
        }
    }
    None
}

/// Returns the index-2 cell, from `cells`, of a block whose 32 offsets all are `null`, or 0x7fff if
/// there is none.
#[inline]
fn null_cell(small: &[u32], null: usize, cells: &[u32]) -> u16 {
    match null_block(small, null) {
        Some(number) => cells[number] as u16,
        None => NO_INDEX3_NULL_OFFSET,
    }
}

/// Appends index-1, the index-3 blocks and index-2 to the fast index. Returns the index-2 cell of
/// the blocks of 512 whose offsets all are `null`, or 0x7fff if there is none.
///
/// `small` has the offsets of the blocks of 16 from the fast limit up to `high_start`.
fn push_upper(
    index: &mut Vec<u16>,
    trie_type: TrieType,
    high_start: usize,
    small: &[u32],
    null: usize,
) -> Result<u16, BuildError> {
    let limit = trie_type.fast_limit() as usize;
    let start = limit / FAST_TYPE_DATA_BLOCK_LENGTH as usize
        + (high_start.div_ceil(CP_PER_INDEX_1_ENTRY) - limit / CP_PER_INDEX_1_ENTRY);
    let mut fast = CellStore::new(widened(index)?);
    let mut store = CellStore::new(Vec::new());
    let numbers = place_index3(&mut store, &mut fast, small, start)?;
    let unread = limit % CP_PER_INDEX_1_ENTRY / CP_PER_INDEX_2_ENTRY as usize;
    let cells = with_unread(&numbers, unread)?;
    let places = place_index2(&mut store, &cells)?;
    push_index1(index, start, &places)?;
    push_stored(index, store.cells())?;
    Ok(null_cell(small, null, &numbers))
}

/// Makes the index of a trie.
///
/// `fast` has the offsets of the blocks of 64 below the fast limit, and `small` those of the blocks
/// of 16 from there up to `high_start` (exclusive). `null` is the offset of the null block of the
/// data, or 0xfffff if there is none.
///
/// # Errors
///
/// - `TooLarge` at the first index-3 block that would be at position 0x7fff or above.
/// - `Memory` if an allocation fails.
pub(crate) fn build_index(
    trie_type: TrieType,
    high_start: usize,
    fast: &[u32],
    small: &[u32],
    null: usize,
) -> Result<BuiltIndex, BuildError> {
    let mut cells = Vec::new();
    push_fast(&mut cells, fast)?;
    if high_start <= trie_type.fast_limit() as usize {
        return Ok(BuiltIndex {
            cells,
            null_offset: NO_INDEX3_NULL_OFFSET,
        });
    }
    let null_offset = push_upper(&mut cells, trie_type, high_start, small, null)?;
    Ok(BuiltIndex { cells, null_offset })
}
