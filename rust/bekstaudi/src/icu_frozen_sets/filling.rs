//! Filling the words of a frozen set, range by range.

use crate::icu_frozen_sets::bits::{BLOCKS, FrozenWords, offsets_for};
use crate::icu_zerovec::MemoryError;
use crate::support::prelude::*;

/// The bits of the ranges that were added so far, in ascending order.
///
/// The start and the end of a range both flip the bits from there on. In the current block, a
/// boundary flips only those in its word. One pass flips the words after it when the block is
/// complete. So a range takes no jump that depends on the words that it is in.
#[derive(Debug)]
pub(crate) struct Filling {
    /// The blocks below `at`. All others are empty here.
    bits: FrozenWords,
    /// The bits of block `at`, flipped only in the word of each boundary.
    block: [u64; 16],
    /// The number of the current block.
    at: u32,
}

/// Flips the bits from the code point `c` on, in the word of `c`.
#[inline(always)]
fn flip_from(block: &mut [u64; 16], c: u32) {
    block[(c / 64 % 16) as usize] ^= u64::MAX << (c % 64);
}

impl Filling {
    /// Returns a filling without ranges, with capacity for a set of `ranges` ranges. `last` is the
    /// last boundary of the set that is not the end of the code space, or 0 if there is none.
    ///
    /// # Errors
    /// Returns `MemoryError` if an allocation fails.
    #[inline]
    pub(crate) fn new(last: u32, ranges: usize) -> Result<Filling, MemoryError> {
        Ok(Filling {
            bits: FrozenWords::new(offsets_for(last), ranges)?,
            block: [0; 16],
            at: 0,
        })
    }

    /// Writes the current block. Block `at`, which is empty, is then the current one.
    #[inline(always)]
    fn end_block(&mut self, at: u32) -> Result<(), MemoryError> {
        self.bits.set_block(self.at as usize, &self.block)?;
        self.block = [0; 16];
        self.at = at;
        Ok(())
    }

    /// Makes `at` the current block. If that changes it, the block before is written.
    #[inline(always)]
    fn move_to(&mut self, at: u32) -> Result<(), MemoryError> {
        if self.at == at {
            return Ok(());
        }
        self.end_block(at)
    }

    /// Writes the current block, and fills those after it up to block `at`, the new current one.
    ///
    /// This is not inlined: few ranges need it, and the loop over all ranges is faster without it.
    #[inline(never)]
    fn fill_later(&mut self, at: u32) -> Result<(), MemoryError> {
        let next = self.at as usize + 1;
        self.end_block(at)?;
        self.bits.fill_blocks(next, at as usize);
        flip_from(&mut self.block, 0);
        Ok(())
    }

    /// Makes `at` the current block. If that changes it, the block before is written, and those
    /// after it are filled up to block `at`.
    #[inline(always)]
    fn fill_to(&mut self, at: u32) -> Result<(), MemoryError> {
        if self.at == at {
            return Ok(());
        }
        self.fill_later(at)
    }

    /// Adds the range `start..end`, which is above all ranges that were added.
    ///
    /// # Errors
    /// Returns `MemoryError` if an allocation fails. The filling must not be used after that.
    #[inline(always)]
    pub(crate) fn add(&mut self, start: u32, end: u32) -> Result<(), MemoryError> {
        self.move_to(start / 1024)?;
        flip_from(&mut self.block, start);
        self.fill_to(end / 1024)?;
        flip_from(&mut self.block, end);
        Ok(())
    }

    /// Returns the words of the frozen set.
    ///
    /// # Errors
    /// Returns `MemoryError` if an allocation fails.
    #[inline]
    pub(crate) fn finish(mut self) -> Result<Vec<u64>, MemoryError> {
        self.move_to(BLOCKS)?;
        let Filling {
            bits,
            block: _,
            at: _,
        } = self;
        Ok(bits.into_words())
    }
}
