//! The null block: a data block of one number, which a walk recognises by its offset and does not
//! read.

use crate::icu_trie_builder::data::filled_blocks::{filled_places, share_filled};
use crate::icu_trie_builder::data::used_numbers::most_used;
use crate::icu_trie_builder::error::BuildError;
use crate::icu_trie_builder::lengths::{FAST_BLOCK, SMALL_BLOCK};
use crate::support::AllocError;
use crate::support::prelude::*;

/// The offset of the null block, and its number.
#[derive(Clone, Copy)]
pub(crate) struct NullBlock {
    /// The offset of the null block.
    pub(crate) offset: u32,
    /// The number of all its cells.
    pub(crate) value: u32,
}

/// A block that has one number throughout, identified by its index among the blocks of its length.
#[derive(Clone, Copy)]
pub(crate) enum FilledBlock {
    /// A block of 64.
    Fast(usize),
    /// A block of 16.
    Small(usize),
}

/// Returns true if the `size` cells from position `at` on all equal `value`.
#[inline]
fn is_filled_with(cells: &[u32], at: usize, size: usize, value: u32) -> bool {
    for i in 0..size {
        if cells[at + i] != value {
            return false;
        }
    }
    true
}

/// Returns true if the `size` cells from position `at` on are equal.
#[inline]
pub(crate) fn is_filled(cells: &[u32], at: usize, size: usize) -> bool {
    is_filled_with(cells, at, size, cells[at])
}

/// Returns true if `value` is the wanted number, or if no number is wanted.
#[inline]
fn is_wanted(wanted: Option<u32>, value: u32) -> bool {
    match wanted {
        None => true,
        Some(wanted) => wanted == value,
    }
}

/// Returns the index of the last of the blocks of `size` cells at these offsets that has one number
/// throughout. If `wanted` is some number, only blocks of that number count.
#[inline]
fn find_filled(cells: &[u32], offsets: &[u32], size: usize, wanted: Option<u32>) -> Option<usize> {
    for number in (0..offsets.len()).rev() {
        let at = offsets[number] as usize;
        if is_wanted(wanted, cells[at]) && is_filled(cells, at, size) {
            return Some(number);
        }
    }
    None
}

/// Returns the last block that has one number throughout: a block of 64, or a block of 16 if there
/// is none. If `wanted` is some number, only blocks of that number count.
fn find_either(
    cells: &[u32],
    fast: &[u32],
    small: &[u32],
    wanted: Option<u32>,
) -> Option<FilledBlock> {
    if let Some(number) = find_filled(cells, fast, FAST_BLOCK, wanted) {
        return Some(FilledBlock::Fast(number));
    }
    if let Some(number) = find_filled(cells, small, SMALL_BLOCK, wanted) {
        return Some(FilledBlock::Small(number));
    }
    None
}

/// Returns a block that has one number throughout, if there is one. It prefers a number that fills
/// many blocks, and a block of 64 of that number.
#[inline]
fn choose(cells: &[u32], fast: &[u32], small: &[u32]) -> Result<Option<FilledBlock>, AllocError> {
    let used = most_used(cells, fast, small)?;
    match find_either(cells, fast, small, used) {
        Some(block) => Ok(Some(block)),
        None => Ok(find_either(cells, fast, small, None)),
    }
}

/// Returns true if `at` is one of the offsets.
#[inline]
fn is_taken(taken: &[u32], at: usize) -> bool {
    for offset in taken {
        if *offset as usize == at {
            return true;
        }
    }
    false
}

/// Returns the first position from `from` on at which 16 cells equal `value`, and which is none of
/// `taken`.
#[inline]
fn find_apart(cells: &[u32], value: u32, from: usize, taken: &[u32]) -> Option<usize> {
    for at in from..cells.len().saturating_sub(SMALL_BLOCK - 1) {
        if is_filled_with(cells, at, SMALL_BLOCK, value) && !is_taken(taken, at) {
            return Some(at);
        }
    }
    None
}

/// Returns how many cells at the end equal `value`, up to 15.
#[inline]
fn filled_tail(cells: &[u32], value: u32) -> usize {
    let most = cells.len().min(SMALL_BLOCK - 1);
    let mut count = 0;
    while count < most && cells[cells.len() - 1 - count] == value {
        count += 1;
    }
    count
}

/// Returns a position at which 16 cells equal `value` and no block of 64 starts. `taken` has the
/// offsets of the blocks of 64.
///
/// It searches from `from` on. If there is no such position, it appends the missing cells.
fn settle(
    stored: &mut Vec<u32>,
    value: u32,
    from: usize,
    taken: &[u32],
    limit: usize,
) -> Result<usize, BuildError> {
    if let Some(at) = find_apart(stored, value, from, taken) {
        return Ok(at);
    }
    let at = stored.len() - filled_tail(stored, value);
    if at > limit {
        return Err(BuildError::TooLarge);
    }
    stored.try_resize(at + SMALL_BLOCK, value)?;
    Ok(at)
}

/// Replaces each offset `from` by `to`.
#[inline]
fn rename(offsets: &mut [u32], from: u32, to: u32) {
    for offset in offsets.iter_mut() {
        if *offset == from {
            *offset = to;
        }
    }
}

/// Makes block number `number` of 64, which has one number throughout, the null block. The blocks
/// of 16 of the same number get its offset too.
#[inline]
fn null_of_fast(cells: &[u32], fast: &[u32], small: &mut [u32], number: usize) -> NullBlock {
    let offset = fast[number];
    let value = cells[offset as usize];
    if let Some(same) = find_filled(cells, small, SMALL_BLOCK, Some(value)) {
        let from = small[same];
        rename(small, from, offset);
    }
    NullBlock { offset, value }
}

/// Makes block number `number` of 16, which has one number throughout, the null block. This block
/// and its equals move to a position at which no block of 64 starts.
fn null_of_small(
    stored: &mut Vec<u32>,
    fast: &[u32],
    small: &mut [u32],
    number: usize,
    limit: usize,
) -> Result<NullBlock, BuildError> {
    let from = small[number];
    let value = stored[from as usize];
    let at = settle(stored, value, from as usize, fast, limit)?;
    let offset = at as u32;
    rename(small, from, offset);
    Ok(NullBlock { offset, value })
}

/// Chooses the null block among the blocks of 64 (offsets `fast`) and of 16 (offsets `small`): a
/// block that has one number throughout. Returns `None` if there is no such block.
///
/// First, each block of 16 moves to a block of 64 if both have the same number throughout. If the
/// null block is then one of 16, it moves to a position at which no block of 64 starts. Otherwise a
/// walk could take a block of 64 for the null block, because both start at the same offset.
///
/// # Errors
///
/// `TooLarge` if the null block would start above `limit`.
pub(crate) fn place_null(
    stored: &mut Vec<u32>,
    fast: &[u32],
    small: &mut [u32],
    limit: usize,
) -> Result<Option<NullBlock>, BuildError> {
    let places = filled_places(stored, fast)?;
    share_filled(stored, &places, small);
    match choose(stored, fast, small)? {
        None => Ok(None),
        Some(FilledBlock::Fast(number)) => Ok(Some(null_of_fast(stored, fast, small, number))),
        Some(FilledBlock::Small(number)) => {
            Ok(Some(null_of_small(stored, fast, small, number, limit)?))
        }
    }
}
