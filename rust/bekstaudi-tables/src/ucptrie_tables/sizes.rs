//! How many cells a built trie has at most.

use crate::host::BTreeSet;
use crate::host::*;
use crate::support::AllocError;
use crate::support::prelude::*;
use bekstaudi::codepointtrie::CodePointTrie;
use bekstaudi::zerovec::CODE_POINT_LIMIT;

/// The most cells that a built trie of some values has.
#[derive(Clone, Copy, Debug, PartialEq, Eq)]
pub struct Bounds {
    pub index: usize,
    pub data: usize,
}

/// Returns the number of code points before those that all have the high value.
pub(crate) fn stored_values(trie: &CodePointTrie<'_, u32>) -> u32 {
    let (header, _, _) = trie.parts();
    let start = header.high_start.max(header.trie_type.fast_limit());
    start.min(CODE_POINT_LIMIT)
}

/// Returns the value of each code point.
fn values_of(trie: &CodePointTrie<'_, u32>) -> Result<Vec<u32>, AllocError> {
    let end = stored_values(trie);
    let mut values = Vec::with_room(CODE_POINT_LIMIT as usize)?;
    for c in 0..end {
        values.try_push(trie.get32(c))?;
    }
    values.try_resize(CODE_POINT_LIMIT as usize, trie.get32(CODE_POINT_LIMIT - 1))?;
    Ok(values)
}

/// Returns the lists of 16 neighbours in an aligned block of 64.
fn windows_of(values: &[u32]) -> Result<BTreeSet<&[u32]>, AllocError> {
    let mut windows = BTreeSet::new();
    let mut before: &[u32] = &[];
    for block in values.chunks(64) {
        if block != before {
            for window in block.windows(16) {
                windows.try_insert(window)?;
            }
        }
        before = block;
    }
    Ok(windows)
}

/// Counts the different aligned blocks of `size` values that are not among the known ones.
fn count_different(
    values: &[u32],
    size: usize,
    known: &BTreeSet<&[u32]>,
) -> Result<usize, AllocError> {
    let mut blocks = BTreeSet::new();
    let mut before: &[u32] = &[];
    for block in values.chunks(size) {
        // Most blocks are equal to the one before, and this is faster than to look them up.
        if block != before && !known.contains(block) {
            blocks.try_insert(block)?;
        }
        before = block;
    }
    Ok(blocks.len())
}

/// Returns the most cells that a trie of this type has if it is built of the values of this one.
///
/// The bounds count different aligned blocks. Data: 64 cells for each block of 64 code points below
/// the fast limit, 16 for each block of 16 above it that occurs in none of these, and 160. Index:
/// 36 cells for each block of 512 above the fast limit, or 32 if the bound on the data is at most
/// 0x10000, and 3,200.
///
/// # Errors
/// Returns [`AllocError`] if an allocation fails.
pub fn bounds_of(trie: &CodePointTrie<'_, u32>) -> Result<Bounds, AllocError> {
    let (header, _, _) = trie.parts();
    let values = values_of(trie)?;
    let (fast, small) = values.split_at(header.trie_type.fast_limit() as usize);
    let (none, windows) = (BTreeSet::new(), windows_of(fast)?);
    let fast_cells = count_different(fast, 64, &none)?.saturating_mul(64);
    let small_cells = count_different(small, 16, &windows)?.saturating_mul(16);
    let data = fast_cells.saturating_add(small_cells).saturating_add(160);
    let cells = if data <= 0x10000 { 32 } else { 36 };
    let index = count_different(small, 512, &none)?.saturating_mul(cells);
    Ok(Bounds {
        index: index.saturating_add(3200),
        data,
    })
}
