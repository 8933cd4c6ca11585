//! The lengths of blocks, as `usize`.

use crate::icu_trie_core::impl_const::{
    FAST_TYPE_DATA_BLOCK_LENGTH, INDEX_2_BLOCK_LENGTH, INDEX_3_BLOCK_LENGTH,
    SMALL_DATA_BLOCK_LENGTH,
};
use crate::support::prelude::*;

/// The number of cells in a block of the fast index: 64.
pub(crate) const FAST_BLOCK: usize = FAST_TYPE_DATA_BLOCK_LENGTH as usize;

/// The number of cells in a block from the fast limit on: 16.
pub(crate) const SMALL_BLOCK: usize = SMALL_DATA_BLOCK_LENGTH as usize;

/// The number of cells in an index-2 block.
pub(crate) const INDEX_2_BLOCK: usize = INDEX_2_BLOCK_LENGTH as usize;

/// The number of offsets in an index-3 block.
pub(crate) const INDEX_3_BLOCK: usize = INDEX_3_BLOCK_LENGTH as usize;
