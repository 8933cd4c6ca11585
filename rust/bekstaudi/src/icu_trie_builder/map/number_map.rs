//! The map from which a trie is built.

use crate::icu_trie_builder::map::blocks::Blocks;
use crate::icu_zerovec::CODE_POINT_LIMIT;
use crate::support::AllocError;
use crate::support::prelude::*;

/// The number of each code point.
#[derive(Debug, Clone)]
enum Numbers {
    /// All code points have this number.
    One(u32),
    /// Each block of 16 has its own numbers, once some code points have been written.
    InBlocks(Blocks),
}

/// A map from code points to 32-bit numbers.
///
/// It stores a single number until the first write to only some code points, and then blocks of 16
/// code points. A block of one number stores only that number; a mixed block has 16 cells.
#[derive(Debug, Clone)]
pub(crate) struct NumberMap {
    numbers: Numbers,
}

impl NumberMap {
    /// Makes a map that has this number at every code point. It allocates nothing.
    #[inline]
    pub(crate) fn new(number: u32) -> NumberMap {
        NumberMap {
            numbers: Numbers::One(number),
        }
    }

    /// Sets the number of each code point in `start..end`. If these are all code points, it
    /// allocates nothing, and the map stores a single number again.
    ///
    /// # Errors
    /// Returns `AllocError` if an allocation fails. The map is then unchanged.
    pub(crate) fn set_range(
        &mut self,
        start: usize,
        end: usize,
        number: u32,
    ) -> Result<(), AllocError> {
        let numbers = &mut self.numbers;
        if start == end {
            return Ok(());
        }
        if end - start == CODE_POINT_LIMIT as usize {
            *numbers = Numbers::One(number);
            return Ok(());
        }
        match numbers {
            Numbers::One(rest) => {
                let mut blocks = Blocks::new(*rest)?;
                blocks.write(start, end, number)?;
                *numbers = Numbers::InBlocks(blocks);
            }
            Numbers::InBlocks(blocks) => blocks.write(start, end, number)?,
        }
        Ok(())
    }

    /// Returns the number of the code point `c`.
    #[inline]
    pub(crate) fn get(&self, c: usize) -> u32 {
        match &self.numbers {
            Numbers::One(number) => *number,
            Numbers::InBlocks(blocks) => blocks.number_of(c),
        }
    }

    /// Returns the number of the last code point.
    #[inline]
    pub(crate) fn last(&self) -> u32 {
        self.get(CODE_POINT_LIMIT as usize - 1)
    }

    /// Returns the first code point from `start` on with another number than `number`, or 0x110000
    /// if there is none. It skips each block of one number in a single step.
    #[inline]
    pub(crate) fn find_other(&self, start: usize, number: u32) -> usize {
        match &self.numbers {
            Numbers::One(rest) if *rest == number => CODE_POINT_LIMIT as usize,
            Numbers::One(_) => start,
            Numbers::InBlocks(blocks) => blocks.find_other(start, number),
        }
    }

    /// Returns the least multiple of 512 from which on all code points have the number of the last
    /// one.
    #[inline]
    pub(crate) fn high_start(&self) -> usize {
        let Numbers::InBlocks(blocks) = &self.numbers else {
            return 0;
        };
        blocks.used(self.last()).div_ceil(32) * 512
    }

    /// Returns the length of a run of equal blocks: how many of the `most` aligned blocks of `size`
    /// code points, from block number `number` on, are known to equal the first one. It is at least 1.
    ///
    /// It compares no cells. A block after the first one counts only if all code points of the run up
    /// to its end have one number and no block of 16 is mixed. So further blocks may be equal.
    #[inline]
    pub(crate) fn repeats(&self, size: usize, number: usize, most: usize) -> usize {
        let Numbers::InBlocks(blocks) = &self.numbers else {
            return most;
        };
        let count = size / 16;
        (blocks.run_of_one(count * number, count * most) / count).max(1)
    }

    /// Replaces the contents of `room` by the numbers of the aligned block number `number` of
    /// `size` code points.
    ///
    /// # Errors
    /// Returns `AllocError` if an allocation fails.
    pub(crate) fn copy_block(
        &self,
        size: usize,
        number: usize,
        room: &mut Vec<u32>,
    ) -> Result<(), AllocError> {
        room.clear();
        let count = size / 16;
        match &self.numbers {
            Numbers::One(rest) => room.try_resize(size, *rest)?,
            Numbers::InBlocks(blocks) => blocks.copy(count * number, count, room)?,
        }
        Ok(())
    }
}
