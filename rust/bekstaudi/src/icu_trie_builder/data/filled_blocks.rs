//! Moves blocks of 16 that have one number throughout to a block of 64 of the same number. Then
//! neighbouring blocks below and above the fast limit have equal offsets more often, and index-3
//! blocks of these offsets are found in the fast index.

use crate::icu_trie_builder::data::null_block::is_filled;
use crate::icu_trie_builder::lengths::{FAST_BLOCK, SMALL_BLOCK};
use crate::support::AllocError;
use crate::support::prelude::*;

/// An offset that no block has.
const NO_OFFSET: u32 = u32::MAX;

/// Returns the offsets of the blocks of 64 that have one number throughout.
///
/// The last block comes first, since the offsets of the first two blocks are fixed: those of later
/// blocks of the same number, which make up most of the fast index, may differ from them.
pub(crate) fn filled_places(cells: &[u32], fast: &[u32]) -> Result<Vec<u32>, AllocError> {
    let mut places = Vec::new();
    let mut last = NO_OFFSET;
    for number in (0..fast.len()).rev() {
        let offset = fast[number];
        if offset != last && is_filled(cells, offset as usize, FAST_BLOCK) {
            places.try_push(offset)?;
        }
        last = offset;
    }
    Ok(places)
}

/// Returns the first of these positions whose cell equals that at `at`, if the 16 cells from `at`
/// on are equal. Otherwise, or if there is none, returns `at`.
#[inline]
fn shared_place(cells: &[u32], places: &[u32], at: u32) -> u32 {
    if !is_filled(cells, at as usize, SMALL_BLOCK) {
        return at;
    }
    for place in places {
        if cells[*place as usize] == cells[at as usize] {
            return *place;
        }
    }
    at
}

/// Moves each block of 16 that has one number throughout to the first of these positions with that
/// number, if there is one.
#[inline]
pub(crate) fn share_filled(cells: &[u32], places: &[u32], small: &mut [u32]) {
    let mut from = NO_OFFSET;
    let mut to = NO_OFFSET;
    for offset in small.iter_mut() {
        if *offset != from {
            from = *offset;
            to = shared_place(cells, places, from);
        }
        *offset = to;
    }
}
