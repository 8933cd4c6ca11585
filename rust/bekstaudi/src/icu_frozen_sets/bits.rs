//! Writing the words of a frozen set: the offset of each block, and the words of each.

use crate::icu_frozen_sets::view::{FULL_BLOCK, offset_count};
use crate::icu_zerovec::{CODE_POINT_LIMIT, MemoryError};
use crate::support::prelude::*;

/// The number of blocks of 1,024 code points.
pub(crate) const BLOCKS: u32 = CODE_POINT_LIMIT / 1024;

/// The number of words of a block.
const BLOCK_WORDS: usize = 16;

/// A word of the full block.
const ONES: u64 = u64::MAX;

/// The empty block starts this number of words after the offsets.
const EMPTY_BLOCK: usize = 16;

/// The greatest number of blocks for which capacity is reserved at first, besides that of U+0000 and
/// the two shared ones. The sets of letters, marks and unassigned code points have fewer blocks that
/// are neither empty nor full, and a set rarely has more such blocks than ranges.
const ROOM: usize = 60;

/// The words of a frozen set while it is filled. All empty blocks share their words, and so do all
/// full blocks. The block of U+0000 and each other block have sixteen words of their own.
#[derive(Debug)]
pub(crate) struct FrozenWords {
    words: Vec<u64>,
}

/// Returns true if all words equal `word`.
#[inline]
fn is_all(words: &[u64], word: u64) -> bool {
    words.iter().all(|own| *own == word)
}

/// Returns true if the first word of the marks is `first` and all others are 0.
#[inline(always)]
fn is_only(marks: &[u64; 16], first: u64) -> bool {
    if marks[0] != first {
        return false;
    }
    is_all(&marks[1..], 0)
}

/// Returns the number of offsets of a set. `last` is its last boundary that is not the end of the code
/// space. The last offset is that of a block after this boundary, unless all blocks have an offset.
#[inline]
pub(crate) fn offsets_for(last: u32) -> usize {
    (last / 1024 + 2).min(BLOCKS) as usize
}

/// Writes `word` from index `from` to before `to`.
#[inline]
fn fill(words: &mut [u64], from: usize, to: usize, word: u64) {
    for k in from..to {
        words[k] = word;
    }
}

/// Writes the bits of a block. A word is flipped if an odd number of boundaries is before it.
#[inline(always)]
fn write_bits(out: &mut [u64], marks: &[u64; 16]) {
    let mut flip = 0;
    for k in 0..16 {
        let word = marks[k] ^ flip;
        out[k] = word;
        // All bits of the next word flip if the last bit of this one is 1.
        flip = (word >> 63).wrapping_neg();
    }
}

/// Writes the bits of a block from index `at` on.
#[inline(always)]
fn write_block(words: &mut [u64], at: usize, marks: &[u64; 16]) {
    write_bits(&mut words[at..at + BLOCK_WORDS], marks);
}

impl FrozenWords {
    /// Returns words in which all blocks are empty, with so many offsets and capacity for the blocks of
    /// a set of `ranges` ranges.
    ///
    /// # Errors
    /// Returns `MemoryError` if an allocation fails.
    #[inline]
    pub(crate) fn new(offsets: usize, ranges: usize) -> Result<FrozenWords, MemoryError> {
        let blocks = offsets + FULL_BLOCK + BLOCK_WORDS;
        let room = blocks + BLOCK_WORDS * ranges.min(offsets).min(ROOM);
        let mut words = Vec::with_room(room)?;
        words.try_resize(offsets, (offsets + EMPTY_BLOCK) as u64)?;
        words.try_resize(offsets + FULL_BLOCK, 0)?;
        words.try_resize(blocks, ONES)?;
        words[0] = offsets as u64;
        Ok(FrozenWords { words })
    }

    /// Returns the words.
    #[inline]
    pub(crate) fn into_words(self) -> Vec<u64> {
        let FrozenWords { words } = self;
        words
    }

    /// Makes block `at` full. It is empty before.
    #[inline(always)]
    fn set_full(&mut self, at: usize) {
        self.words[at] = (offset_count(&self.words) + FULL_BLOCK) as u64;
    }

    /// Gives block `at` sixteen words of its own. It is empty before.
    #[inline(always)]
    fn set_own(&mut self, at: usize, marks: &[u64; 16]) -> Result<(), MemoryError> {
        let place = self.words.len();
        self.words.try_resize(place + BLOCK_WORDS, 0)?;
        write_block(&mut self.words, place, marks);
        self.words[at] = place as u64;
        Ok(())
    }

    /// Sets the words of the block of U+0000.
    #[inline]
    fn set_first(&mut self, marks: &[u64; 16]) {
        let first = offset_count(&self.words);
        write_block(&mut self.words, first, marks);
    }

    /// Sets the words of block `at`, which is empty before. In `marks`, each boundary in the block
    /// has flipped the bits of its own word. A block whose bits are all 0 or all 1 shares its words
    /// with the others of its kind, unless it is the block of U+0000.
    ///
    /// # Errors
    /// Returns `MemoryError` if an allocation fails. The words must not be used after that.
    #[inline(always)]
    pub(crate) fn set_block(&mut self, at: usize, marks: &[u64; 16]) -> Result<(), MemoryError> {
        if at == 0 {
            self.set_first(marks);
            return Ok(());
        }
        if is_only(marks, 0) {
            return Ok(());
        }
        if is_only(marks, ONES) {
            self.set_full(at);
            return Ok(());
        }
        self.set_own(at, marks)
    }

    /// Makes the blocks from `from` to before `to` full. They are empty before. If `to` is the end of
    /// all blocks, the last offset is that of the full block for all later blocks, too.
    #[inline]
    pub(crate) fn fill_blocks(&mut self, from: usize, to: usize) {
        let offsets = offset_count(&self.words);
        let last = to.min(offsets);
        fill(&mut self.words, from, last, (offsets + FULL_BLOCK) as u64);
    }
}
