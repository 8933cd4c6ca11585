//! How far a value extends, block by block: the part of a walk after its look-up.
//!
//! Each block is read at most once. A block that is named as null, or that was read just before, is
//! skipped without a read. The functions return `None` if the value extends to a position at which
//! a walk sees nothing: a missing cell, or a block that is named as null if the null value does not
//! exist.

use crate::icu_trie_core::cells::Cells;
use crate::icu_trie_core::header::CodePointTrieHeader;
use crate::icu_trie_core::impl_const::{
    CP_PER_INDEX_2_ENTRY, FAST_TYPE_DATA_BLOCK_LENGTH, SMALL_DATA_BLOCK_LENGTH,
};
use crate::icu_trie_core::lookup::{high_cell_of, index2_cell_of, offset_of};
use crate::icu_trie_core::value::TrieValue;
use crate::icu_trie_core::walk::is_same;
use crate::icu_zerovec::CODE_POINT_LIMIT;
use crate::support::prelude::*;
use core::ops::Range;

/// Returns the code point at which the blocks of a trie end: the high start, or 0x110000 if that is
/// less.
#[inline(always)]
pub(crate) fn blocks_end_of(header: &CodePointTrieHeader) -> u32 {
    header.high_start.min(CODE_POINT_LIMIT)
}

/// What a walk looks for: how far `value` extends in the trie with this header.
#[derive(Clone)]
pub(crate) struct Walk<'a, T> {
    /// The header of the trie.
    pub(crate) header: &'a CodePointTrieHeader,
    /// The value of the code points.
    pub(crate) value: T,
}

impl<'a, T: TrieValue> Walk<'a, T> {
    /// Returns the first position in `range` of a data block with another value, or the end of
    /// `range` if there is none. Returns `None` if a missing cell comes first.
    #[inline(always)]
    fn extend_by_cells<C: Cells<T>>(
        &self,
        cells: &mut C,
        offset: u32,
        range: Range<u32>,
    ) -> Option<u32> {
        let there = cells
            .data_len()
            .saturating_sub(offset as usize)
            .min(range.end as usize) as u32;
        for position in range.start..there {
            if !is_same(
                cells.data_at(offset as usize + position as usize),
                self.value,
            ) {
                return Some(position);
            }
        }
        if there < range.end {
            None
        } else {
            Some(range.end)
        }
    }

    /// Returns the first position in `range` of a data block with another value, or the end of
    /// `range` if there is none.
    ///
    /// It does not read a block that is named as null.
    #[inline(always)]
    fn extend_in_block<C: Cells<T>>(
        &self,
        cells: &mut C,
        offset: u32,
        range: Range<u32>,
    ) -> Option<u32> {
        if offset == self.header.data_null_offset {
            let null = T::try_from_u32(self.header.null_value).ok()?;
            return Some(if is_same(null, self.value) {
                range.end
            } else {
                range.start
            });
        }
        self.extend_by_cells(cells, offset, range)
    }

    /// Returns the first code point with another value among those from `start` on in blocks of 64.
    /// If there is none, returns the fast limit, or the end of the blocks if that is less.
    ///
    /// This function and `extend_index3` are not inlined, so that their loops keep all they need in
    /// registers.
    #[inline(never)]
    fn extend_fast<C: Cells<T>>(&self, cells: &mut C, start: u32) -> Option<u32> {
        let limit = blocks_end_of(self.header).min(self.header.trie_type.fast_limit());
        let mut remembered = None;
        let blocks = limit.div_ceil(FAST_TYPE_DATA_BLOCK_LENGTH);
        for block in start / FAST_TYPE_DATA_BLOCK_LENGTH..blocks {
            let base = block * FAST_TYPE_DATA_BLOCK_LENGTH;
            let len = (limit - base).min(FAST_TYPE_DATA_BLOCK_LENGTH);
            let offset = u32::from(cells.index_cell(block as usize)?);
            if remembered == Some(offset) {
                continue;
            }
            let reach = self.extend_in_block(cells, offset, 0..len)?;
            if reach < len {
                return Some(base + reach);
            }
            remembered = Some(offset);
        }
        Some(limit)
    }

    /// Returns the first position in `range` of an index-3 block with another value, or the end of
    /// `range` if there is none. It goes through the blocks of 16.
    #[inline(never)]
    fn extend_index3<C: Cells<T>>(
        &self,
        cells: &mut C,
        cell: u16,
        range: Range<u32>,
    ) -> Option<u32> {
        let len = range.end;
        let mut remembered = None;
        let blocks = len.div_ceil(SMALL_DATA_BLOCK_LENGTH);
        for block in range.start / SMALL_DATA_BLOCK_LENGTH..blocks {
            let base = block * SMALL_DATA_BLOCK_LENGTH;
            let block_len = (len - base).min(SMALL_DATA_BLOCK_LENGTH);
            let offset = offset_of(cells, cell, block)?;
            if remembered == Some(offset) {
                continue;
            }
            let reach = self.extend_in_block(cells, offset, 0..block_len)?;
            if reach < block_len {
                return Some(base + reach);
            }
            remembered = Some(offset);
        }
        Some(len)
    }

    /// Returns the first position below `len` in a block of 512 with another value, or `len` if
    /// there is none.
    ///
    /// It does not read a block that is named as null.
    #[inline]
    fn extend_in_cell<C: Cells<T>>(&self, cells: &mut C, cell: u16, len: u32) -> Option<u32> {
        if cell == self.header.index3_null_offset {
            let null = T::try_from_u32(self.header.null_value).ok()?;
            return Some(if is_same(null, self.value) { len } else { 0 });
        }
        self.extend_index3(cells, cell, 0..len)
    }

    /// Returns the first code point with another value among those from `start` on in blocks of
    /// 512, or the end of the blocks if there is none.
    fn extend_small<C: Cells<T>>(&self, cells: &mut C, start: u32) -> Option<u32> {
        let limit = blocks_end_of(self.header);
        let mut remembered = None;
        for block in start / CP_PER_INDEX_2_ENTRY..limit.div_ceil(CP_PER_INDEX_2_ENTRY) {
            let base = block * CP_PER_INDEX_2_ENTRY;
            let len = (limit - base).min(CP_PER_INDEX_2_ENTRY);
            let cell = index2_cell_of(self.header.trie_type, cells, base)?;
            if remembered == Some(cell) {
                continue;
            }
            let reach = self.extend_in_cell(cells, cell, len)?;
            if reach < len {
                return Some(base + reach);
            }
            remembered = Some(cell);
        }
        Some(limit)
    }

    /// Returns the first code point from `start` on in blocks with another value, or the end of the
    /// blocks if there is none.
    ///
    /// `start` is that end or the start of a block.
    fn extend<C: Cells<T>>(&self, cells: &mut C, start: u32) -> Option<u32> {
        if start == blocks_end_of(self.header) {
            return Some(start);
        }
        let fast_limit = self.header.trie_type.fast_limit();
        if start >= fast_limit {
            return self.extend_small(cells, start);
        }
        let end = self.extend_fast(cells, start)?;
        if end < fast_limit {
            return Some(end);
        }
        self.extend_small(cells, fast_limit)
    }

    /// Returns whether the high value equals the value, or `None` if the data have no high value.
    #[inline]
    fn high_is<C: Cells<T>>(&self, cells: &mut C) -> Option<bool> {
        let place = high_cell_of(cells.data_len())?;
        let high = cells.data_cell(place)?;
        Some(is_same(high, self.value))
    }

    /// Returns the first code point from `start` on with another value, or 0x110000 if there is
    /// none.
    ///
    /// `start` is the end of the blocks or the start of a block. This function is not inlined,
    /// since most ranges end in the block in which they start.
    #[inline(never)]
    fn extend_to_end<C: Cells<T>>(&self, cells: &mut C, start: u32) -> Option<u32> {
        let end = self.extend(cells, start)?;
        let limit = blocks_end_of(self.header);
        if end < limit || limit == CODE_POINT_LIMIT {
            return Some(end);
        }
        Some(if self.high_is(cells)? {
            CODE_POINT_LIMIT
        } else {
            limit
        })
    }

    /// Returns the first code point from `c` on with another value, or 0x110000 if there is none.
    ///
    /// `offset` is the data offset of the block of 64 that contains `c`.
    #[inline(always)]
    pub(crate) fn extend_from_fast<C: Cells<T>>(
        &self,
        cells: &mut C,
        c: u32,
        offset: u32,
    ) -> Option<u32> {
        let base = c / FAST_TYPE_DATA_BLOCK_LENGTH * FAST_TYPE_DATA_BLOCK_LENGTH;
        let len = (blocks_end_of(self.header) - base).min(FAST_TYPE_DATA_BLOCK_LENGTH);
        let reach = self.extend_in_block(cells, offset, c - base..len)?;
        if reach < len {
            return Some(base + reach);
        }
        self.extend_to_end(cells, base + len)
    }

    /// Returns the first position in `range` of a block of 512 with another value, or the end of
    /// `range` if there is none.
    ///
    /// `offset` is the data offset of the block of 16 that contains the start of `range`.
    #[inline(always)]
    fn extend_from_block<C: Cells<T>>(
        &self,
        cells: &mut C,
        cell: u16,
        offset: u32,
        range: Range<u32>,
    ) -> Option<u32> {
        if cell != self.header.index3_null_offset {
            let base = range.start / SMALL_DATA_BLOCK_LENGTH * SMALL_DATA_BLOCK_LENGTH;
            let len = (range.end - base).min(SMALL_DATA_BLOCK_LENGTH);
            let reach = self.extend_in_block(cells, offset, range.start - base..len)?;
            if reach < SMALL_DATA_BLOCK_LENGTH {
                return Some(base + reach);
            }
            let next = base + SMALL_DATA_BLOCK_LENGTH;
            return self.extend_index3(cells, cell, next..range.end);
        }
        let null = T::try_from_u32(self.header.null_value).ok()?;
        Some(if is_same(null, self.value) {
            range.end
        } else {
            range.start
        })
    }

    /// Returns the first code point from `c` on with another value, or 0x110000 if there is none.
    ///
    /// `cell` is the index-2 cell of the block of 512 that contains `c`, and `offset` is the data
    /// offset of the block of 16 that does.
    #[inline(always)]
    pub(crate) fn extend_from_small<C: Cells<T>>(
        &self,
        cells: &mut C,
        c: u32,
        cell: u16,
        offset: u32,
    ) -> Option<u32> {
        let base = c / CP_PER_INDEX_2_ENTRY * CP_PER_INDEX_2_ENTRY;
        let len = (blocks_end_of(self.header) - base).min(CP_PER_INDEX_2_ENTRY);
        let reach = self.extend_from_block(cells, cell, offset, c - base..len)?;
        if reach < len {
            return Some(base + reach);
        }
        self.extend_to_end(cells, base + len)
    }
}
