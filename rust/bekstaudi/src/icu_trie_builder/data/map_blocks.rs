//! Places the blocks of a map in the data.

use crate::icu_trie_builder::compaction::cell_store::CellStore;
use crate::icu_trie_builder::error::BuildError;
use crate::icu_trie_builder::map::number_map::NumberMap;
use crate::support::prelude::*;

/// The greatest 18-bit offset of a block.
pub(crate) const MAX_DATA_OFFSET: usize = 0x3ffff;

/// The aligned blocks of a map that have this many code points.
#[derive(Clone, Copy)]
pub(crate) struct MapBlocks<'a> {
    /// The map.
    pub(crate) map: &'a NumberMap,
    /// The number of code points in a block.
    pub(crate) size: usize,
}

impl MapBlocks<'_> {
    /// Places `count` blocks in `store`, from block number `first` on, and returns their offsets.
    ///
    /// The offset of a block is the first position at which its numbers occur. If
    /// [`NumberMap::repeats`] reports a run of equal blocks, only the first one is read.
    ///
    /// # Errors
    ///
    /// `TooLarge` at the first block whose offset has more than 18 bits.
    pub(crate) fn place(
        &self,
        store: &mut CellStore,
        first: usize,
        count: usize,
    ) -> Result<Vec<u32>, BuildError> {
        let mut room = Vec::with_room(self.size)?;
        let mut offsets = Vec::with_room(count)?;
        let mut j = 0;
        while j < count {
            self.map.copy_block(self.size, first + j, &mut room)?;
            let offset = store.place(&room, MAX_DATA_OFFSET)? as u32;
            j += self.map.repeats(self.size, first + j, count - j);
            offsets.try_resize(j, offset)?;
        }
        Ok(offsets)
    }
}
