//! The check whether a trie is coherent.
//!
//! It goes through the trie block by block and looks up no code point. The offset of a data block
//! alone says whether the block is inside the data. Cells are read only in two cases: the header
//! names the block as null, or the fast index continues above the high start.

use crate::icu_trie_core::cells::Cells;
use crate::icu_trie_core::header::CodePointTrieHeader;
use crate::icu_trie_core::impl_const::{
    CP_PER_INDEX_2_ENTRY, FAST_TYPE_DATA_BLOCK_LENGTH, INDEX_3_BLOCK_LENGTH,
    SMALL_DATA_BLOCK_LENGTH,
};
use crate::icu_trie_core::lookup::{high_cell_of, index2_cell_of, offset_of};
use crate::icu_trie_core::value::TrieValue;
use crate::icu_trie_core::walk::is_same;
use crate::icu_zerovec::CODE_POINT_LIMIT;
use crate::support::prelude::*;

/// Returns true if the `len` data cells from `offset` on all exist and equal `value`.
#[inline]
fn are_all<T: TrieValue, C: Cells<T>>(cells: &mut C, offset: u32, len: u32, value: T) -> bool {
    for place in 0..len {
        let Some(cell) = cells.data_cell(offset as usize + place as usize) else {
            return false;
        };
        if !is_same(cell, value) {
            return false;
        }
    }
    true
}

/// Returns true if the null value exists and the `len` data cells from `offset` on all equal it.
#[inline]
fn is_null_block<T: TrieValue, C: Cells<T>>(
    header: &CodePointTrieHeader,
    cells: &mut C,
    offset: u32,
    len: u32,
) -> bool {
    let Some(null) = T::try_from_u32(header.null_value).ok() else {
        return false;
    };
    are_all(cells, offset, len, null)
}

/// Returns true if the `len` data cells from `offset` on exist, and equal the null value if the
/// header names the block as null.
///
/// `null_block` says whether the `len` cells at the null data offset equal the null value.
#[inline]
fn is_block<T: TrieValue, C: Cells<T>>(
    header: &CodePointTrieHeader,
    cells: &C,
    offset: u32,
    len: u32,
    null_block: bool,
) -> bool {
    if offset == header.data_null_offset {
        return null_block;
    }
    offset as usize + len as usize <= cells.data_len()
}

/// Returns true if each block of 64 below the fast limit and the high start passes `is_block`.
fn has_fast_blocks<T: TrieValue, C: Cells<T>>(header: &CodePointTrieHeader, cells: &mut C) -> bool {
    let null_block = is_null_block(
        header,
        cells,
        header.data_null_offset,
        FAST_TYPE_DATA_BLOCK_LENGTH,
    );
    let limit = header.high_start.min(header.trie_type.fast_limit());
    for block in 0..limit.div_ceil(FAST_TYPE_DATA_BLOCK_LENGTH) {
        let Some(offset) = cells.index_cell(block as usize) else {
            return false;
        };
        if !is_block(
            header,
            cells,
            u32::from(offset),
            FAST_TYPE_DATA_BLOCK_LENGTH,
            null_block,
        ) {
            return false;
        }
    }
    true
}

/// Returns true if the 32 blocks of 16 that an index-2 cell names all pass `is_block`.
///
/// `null_block` says whether the 16 cells at the null data offset equal the null value.
fn names_blocks<T: TrieValue, C: Cells<T>>(
    header: &CodePointTrieHeader,
    cells: &mut C,
    cell: u16,
    null_block: bool,
) -> bool {
    for place in 0..INDEX_3_BLOCK_LENGTH {
        let Some(offset) = offset_of(cells, cell, place) else {
            return false;
        };
        if !is_block(header, cells, offset, SMALL_DATA_BLOCK_LENGTH, null_block) {
            return false;
        }
    }
    true
}

/// Returns true if the 32 blocks of 16 that the null index-2 cell names have the null value
/// throughout.
#[inline]
fn is_null_cell<T: TrieValue, C: Cells<T>>(header: &CodePointTrieHeader, cells: &mut C) -> bool {
    for place in 0..INDEX_3_BLOCK_LENGTH {
        let Some(offset) = offset_of(cells, header.index3_null_offset, place) else {
            return false;
        };
        if !is_null_block(header, cells, offset, SMALL_DATA_BLOCK_LENGTH) {
            return false;
        }
    }
    true
}

/// Returns true if the blocks that an index-2 cell names are inside the data, and null if the
/// header names them as null.
///
/// `null_block` says whether the block at the null data offset is null, and `null_cell` whether the
/// blocks of the null index-2 cell are.
#[inline]
fn is_cell<T: TrieValue, C: Cells<T>>(
    header: &CodePointTrieHeader,
    cells: &mut C,
    cell: u16,
    null_block: bool,
    null_cell: bool,
) -> bool {
    let named_null = cell == header.index3_null_offset;
    if named_null {
        return null_cell;
    }
    names_blocks(header, cells, cell, null_block)
}

/// Returns true if each block of 512 from the fast limit up to the high start passes `is_cell`.
fn has_small_blocks<T: TrieValue, C: Cells<T>>(
    header: &CodePointTrieHeader,
    cells: &mut C,
) -> bool {
    let null_block = is_null_block(
        header,
        cells,
        header.data_null_offset,
        SMALL_DATA_BLOCK_LENGTH,
    );
    let null_cell = is_null_cell(header, cells);
    let mut known = None;
    for block in header.trie_type.fast_limit() / CP_PER_INDEX_2_ENTRY
        ..header.high_start.div_ceil(CP_PER_INDEX_2_ENTRY)
    {
        let Some(cell) = index2_cell_of(header.trie_type, cells, block * CP_PER_INDEX_2_ENTRY)
        else {
            return false;
        };
        if known != Some(cell) && !is_cell(header, cells, cell, null_block, null_cell) {
            return false;
        }
        known = Some(cell);
    }
    true
}

/// Returns true if each block of 64 from the high start up to the fast limit has the high value
/// throughout.
fn has_high_blocks<T: TrieValue, C: Cells<T>>(
    header: &CodePointTrieHeader,
    cells: &mut C,
    high: T,
) -> bool {
    let mut known = None;
    for block in header.high_start.div_ceil(FAST_TYPE_DATA_BLOCK_LENGTH)
        ..header.trie_type.fast_limit() / FAST_TYPE_DATA_BLOCK_LENGTH
    {
        let Some(offset) = cells.index_cell(block as usize) else {
            return false;
        };
        if known != Some(offset)
            && !are_all(cells, u32::from(offset), FAST_TYPE_DATA_BLOCK_LENGTH, high)
        {
            return false;
        }
        known = Some(offset);
    }
    true
}

/// Returns true if the high value exists when it is needed, and the fast index agrees with it.
#[inline]
fn has_high_value<T: TrieValue, C: Cells<T>>(header: &CodePointTrieHeader, cells: &mut C) -> bool {
    if header.high_start == CODE_POINT_LIMIT {
        return true;
    }
    let Some(place) = high_cell_of(cells.data_len()) else {
        return false;
    };
    let Some(high) = cells.data_cell(place) else {
        return false;
    };
    has_high_blocks(header, cells, high)
}

/// Returns true if all blocks of a trie satisfy coherence.
#[inline]
fn has_coherent_blocks<T: TrieValue, C: Cells<T>>(
    header: &CodePointTrieHeader,
    cells: &mut C,
) -> bool {
    if !has_high_value(header, cells) {
        return false;
    }
    if !has_fast_blocks(header, cells) {
        return false;
    }
    has_small_blocks(header, cells)
}

/// Returns true if a trie is coherent, that is, if ranges may trust its header. The format is ICU's
/// `UCPTrie`.
///
/// In a coherent trie, what the header says about the high value and about null blocks is true. No
/// look-up of a code point below the high start reads outside the index or the data. A walk over a
/// coherent trie returns the maximal runs of look-up results.
///
/// The check reads at most 212,000 cells. It looks up no code point: each aligned block takes a few
/// reads. From the fast limit on, a block that is named by the same cell as the one before it is
/// not checked again.
#[inline]
pub fn is_coherent<T: TrieValue, C: Cells<T>>(header: &CodePointTrieHeader, cells: &mut C) -> bool {
    if header.high_start % CP_PER_INDEX_2_ENTRY != 0 || header.high_start > CODE_POINT_LIMIT {
        return false;
    }
    has_coherent_blocks(header, cells)
}
