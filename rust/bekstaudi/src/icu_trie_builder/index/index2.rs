//! Places the index-2 blocks: the index-2 cells of 32 blocks of 512 code points. Equal blocks are
//! stored once. A block may be anywhere among the index-3 and index-2 cells stored so far, and may
//! overlap their tail.

use crate::icu_trie_builder::compaction::blocks::block_at;
use crate::icu_trie_builder::compaction::cell_store::CellStore;
use crate::icu_trie_builder::error::BuildError;
use crate::icu_trie_builder::lengths::INDEX_2_BLOCK;
use crate::support::AllocError;
use crate::support::prelude::*;

/// A limit above every position of an index-2 block.
const MOST_CELLS: usize = 0x10000;

/// Returns the index-2 cells after `count` further cells that no look-up reads. These are copies of
/// the first cell, so that they can often share storage.
#[inline]
pub(crate) fn with_unread(cells: &[u32], count: usize) -> Result<Vec<u32>, AllocError> {
    let mut all = try_vec![cells[0]; count]?;
    all.try_extend_from_slice(cells)?;
    Ok(all)
}

/// Places the whole blocks of 32 cells, and returns the position of each in `store`.
#[inline]
fn place_whole(store: &mut CellStore, cells: &[u32]) -> Result<Vec<usize>, BuildError> {
    let count = cells.len() / INDEX_2_BLOCK;
    let mut places = Vec::with_room(count + 1)?;
    for number in 0..count {
        let wanted = block_at(cells, INDEX_2_BLOCK, number);
        let at = store.place(wanted, MOST_CELLS)?;
        places.try_push(at)?;
    }
    Ok(places)
}

/// Places all blocks of 32 cells, and returns the position of each in `store`. The last block may
/// be shorter.
#[inline]
pub(crate) fn place_index2(store: &mut CellStore, cells: &[u32]) -> Result<Vec<usize>, BuildError> {
    let mut places = place_whole(store, cells)?;
    let rest = cells.len() % INDEX_2_BLOCK;
    if rest > 0 {
        let tail = &cells[cells.len() - rest..];
        let last = store.place(tail, MOST_CELLS)?;
        places.try_push(last)?;
    }
    Ok(places)
}
