//! The walk: the range of equal values from a code point on.
//!
//! One look-up finds the block in which the range starts, and the walk continues from there, block
//! by block. A walk trusts what the header says about null blocks. Over a coherent trie this is
//! true, so a walk sees what look-ups return.

use crate::icu_trie_core::cells::Cells;
use crate::icu_trie_core::extend::{Walk, blocks_end_of};
use crate::icu_trie_core::header::CodePointTrieHeader;
use crate::icu_trie_core::impl_const::{
    CP_PER_INDEX_2_ENTRY, FAST_TYPE_DATA_BLOCK_LENGTH, SMALL_DATA_BLOCK_LENGTH,
};
use crate::icu_trie_core::lookup::{index2_cell_of, look_up, offset_of};
use crate::icu_trie_core::range::CodePointMapRange;
use crate::icu_trie_core::value::TrieValue;
use crate::icu_zerovec::CODE_POINT_LIMIT;
use crate::support::prelude::*;

/// Returns true if two values are equal. Public for the crates that build on this one.
#[must_use]
#[inline]
pub fn is_same<T: TrieValue>(x: T, y: T) -> bool {
    x == y
}

/// Returns the range `c..end`, or `c` alone if `end` is `c`. In the second case the walk sees
/// another value at `c` than the look-up returned.
#[inline(always)]
fn range_up_to<T: TrieValue>(c: u32, end: u32, value: T) -> CodePointMapRange<T> {
    let end = end.max(c + 1);
    CodePointMapRange {
        range: c..=end - 1,
        value,
    }
}

/// `walk` from a code point below the end of the blocks and below the fast limit. One look-up finds
/// the block of 64, and the walk continues in its cells.
#[inline(always)]
fn walk_fast<T: TrieValue, C: Cells<T>>(
    header: &CodePointTrieHeader,
    cells: &mut C,
    c: u32,
) -> Option<CodePointMapRange<T>> {
    let offset = u32::from(cells.index_cell((c / FAST_TYPE_DATA_BLOCK_LENGTH) as usize)?);
    let value = cells.data_cell((offset + c % FAST_TYPE_DATA_BLOCK_LENGTH) as usize)?;
    let end = Walk { header, value }.extend_from_fast(cells, c, offset)?;
    Some(range_up_to(c, end, value))
}

/// `walk` from a code point below the end of the blocks and at or above the fast limit. One look-up
/// finds the block of 512 and the block of 16, and the walk continues in their cells.
#[inline(always)]
fn walk_small<T: TrieValue, C: Cells<T>>(
    header: &CodePointTrieHeader,
    cells: &mut C,
    c: u32,
) -> Option<CodePointMapRange<T>> {
    let base = c / CP_PER_INDEX_2_ENTRY * CP_PER_INDEX_2_ENTRY;
    let cell = index2_cell_of(header.trie_type, cells, base)?;
    let place = c % CP_PER_INDEX_2_ENTRY / SMALL_DATA_BLOCK_LENGTH;
    let offset = offset_of(cells, cell, place)?;
    let value = cells.data_cell((offset + c % SMALL_DATA_BLOCK_LENGTH) as usize)?;
    let end = Walk { header, value }.extend_from_small(cells, c, cell, offset)?;
    Some(range_up_to(c, end, value))
}

/// `look_up`, not inlined: few ranges start at or after the high start.
#[inline(never)]
fn look_up_outlined<T: TrieValue, C: Cells<T>>(
    header: &CodePointTrieHeader,
    cells: &mut C,
    c: u32,
) -> Option<T> {
    look_up(header, cells, c)
}

/// `walk` from a code point at or above the high start.
#[inline(always)]
fn walk_high<T: TrieValue, C: Cells<T>>(
    header: &CodePointTrieHeader,
    cells: &mut C,
    c: u32,
) -> Option<CodePointMapRange<T>> {
    if c >= CODE_POINT_LIMIT {
        return None;
    }
    let value = look_up_outlined(header, cells, c)?;
    Some(CodePointMapRange {
        range: c..=CODE_POINT_LIMIT - 1,
        value,
    })
}

/// `walk`, for any code point and any trie.
#[inline(always)]
fn walk_any<T: TrieValue, C: Cells<T>>(
    header: &CodePointTrieHeader,
    cells: &mut C,
    c: u32,
) -> Option<CodePointMapRange<T>> {
    if c >= blocks_end_of(header) {
        return walk_high(header, cells, c);
    }
    if c < header.trie_type.fast_limit() {
        return walk_fast(header, cells, c);
    }
    walk_small(header, cells, c)
}

/// Returns the range of code points from `c` on that have the same value as `c`. The format is
/// ICU's `UCPTrie`.
///
/// Over a coherent trie this is the longest run of equal look-up results from `c` on. Over any
/// other trie a walk trusts the header: it sees the null value in blocks that the header names as
/// null, and the high value from the high start on. If it then sees another value at `c` than the
/// look-up returns, the range is `c` alone.
///
/// Returns `None` if `c` is above 0x10FFFF, or if the walk reaches a missing cell. It also returns
/// `None` if the walk reaches a block that is named as null and the header's null value is not the
/// number of any value.
///
/// Over a trie that is coherent and shared, a walk takes at most 6,000 reads.
#[inline(always)]
pub fn walk<T: TrieValue, C: Cells<T>>(
    header: &CodePointTrieHeader,
    cells: &mut C,
    c: u32,
) -> Option<CodePointMapRange<T>> {
    walk_any(header, cells, c)
}
