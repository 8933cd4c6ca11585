//! Places the index-3 blocks: the 32 data offsets of each block of 512 code points, in 16 bits if
//! all of them fit, otherwise in the 18-bit form. Equal blocks are stored once. A block may be
//! anywhere among the cells stored so far, and may overlap their tail. A 16-bit block may also be
//! in the fast index.

use crate::icu_trie_builder::compaction::blocks::block_at;
use crate::icu_trie_builder::compaction::cell_store::CellStore;
use crate::icu_trie_builder::error::BuildError;
use crate::icu_trie_builder::index::packing::pack;
use crate::icu_trie_builder::lengths::INDEX_3_BLOCK;
use crate::support::prelude::*;

/// The index-3 offset that stands for "no null block". No block has this offset.
pub(crate) const NO_INDEX3_NULL_OFFSET: u16 = 0x7fff;

/// Returns true if all offsets have 16 bits.
#[inline]
fn fit_16_bits(offsets: &[u32]) -> bool {
    for offset in offsets {
        if *offset >= 0x10000 {
            return false;
        }
    }
    true
}

/// Returns true if block number `number` of 512 has the same offsets as the block before it.
#[inline]
fn repeats(offsets: &[u32], number: usize) -> bool {
    number > 0
        && block_at(offsets, INDEX_3_BLOCK, number) == block_at(offsets, INDEX_3_BLOCK, number - 1)
}

/// Places the block of 512 with these 32 offsets, and returns its index-2 cell. `store` starts at
/// index position `start`.
///
/// # Errors
///
/// `TooLarge` if the block would be at position 0x7fff or above.
fn place_offsets(
    store: &mut CellStore,
    fast: &mut CellStore,
    offsets: &[u32],
    start: usize,
) -> Result<usize, BuildError> {
    let greatest = usize::from(NO_INDEX3_NULL_OFFSET) - 1 - start;
    if !fit_16_bits(offsets) {
        let packed = pack(offsets)?;
        let at = store.place(&packed, greatest)?;
        return Ok(0x8000 + start + at);
    }
    if let Some(at) = fast.find(offsets)? {
        return Ok(at);
    }
    let at = store.place(offsets, greatest)?;
    if at > greatest {
        return Err(BuildError::TooLarge);
    }
    Ok(start + at)
}

/// Places all blocks of 512 in `store`, and returns their index-2 cells. `store` is empty at first
/// and starts at index position `start`. `fast` has the fast index.
///
/// # Errors
///
/// `TooLarge` at the first block that would be at position 0x7fff or above.
pub(crate) fn place_index3(
    store: &mut CellStore,
    fast: &mut CellStore,
    offsets: &[u32],
    start: usize,
) -> Result<Vec<u32>, BuildError> {
    let count = offsets.len() / INDEX_3_BLOCK;
    let mut cells = Vec::with_room(count)?;
    for number in 0..count {
        if repeats(offsets, number) {
            cells.try_push(cells[number - 1])?;
            continue;
        }
        let wanted = block_at(offsets, INDEX_3_BLOCK, number);
        let cell = place_offsets(store, fast, wanted, start)?;
        cells.try_push(cell as u32)?;
    }
    Ok(cells)
}
