//! The numbers of all code points, in blocks of 16.

use crate::icu_zerovec::CODE_POINT_LIMIT;
use crate::support::AllocError;
use crate::support::prelude::*;

/// The number of blocks of 16 code points.
const BLOCK_COUNT: usize = CODE_POINT_LIMIT as usize / 16;

/// The number of blocks that a search from the end looks at together. It divides `BLOCK_COUNT`.
const GROUP: usize = 64;

/// Below this block number, four blocks become mixed together.
const FIRST_SINGLE: usize = 0x1000;

/// The numbers of 16 code points.
#[derive(Clone, Copy)]
enum Block<'a> {
    /// All 16 have this number.
    One(u32),
    /// The block is mixed: each code point has its own number.
    Cells(&'a [u32; 16]),
}

/// The numbers of all code points, in blocks of 16.
#[derive(Debug, Clone)]
pub(crate) struct Blocks {
    /// For each block, whether it is mixed, that is, has cells.
    mixed: Vec<bool>,
    /// For each block, the number of all its code points, or the position of its cells if it is
    /// mixed.
    places: Vec<u32>,
    /// The numbers of the code points of each mixed block.
    cells: Vec<[u32; 16]>,
}

/// Returns a list of `count` copies of a value.
#[inline]
fn copies<T: Copy>(count: usize, value: T) -> Result<Vec<T>, AllocError> {
    let mut made = Vec::with_room(count)?;
    made.try_resize(count, value)?;
    Ok(made)
}

/// Appends the cells of a block that has this number throughout.
#[inline]
fn push_block(cells: &mut Vec<[u32; 16]>, number: u32) -> Result<(), AllocError> {
    // Grow by a quarter instead of doubling: for most maps the cells would only partly fill the
    // doubled capacity.
    if cells.capacity() == cells.len() {
        cells.try_exact_room(cells.len() / 4 + 64)?;
    }
    cells.try_push([number; 16])?;
    Ok(())
}

/// Writes the number to the positions `start..end`.
#[inline]
fn fill_range(cells: &mut [u32; 16], start: usize, end: usize, number: u32) {
    for i in start..end {
        cells[i] = number;
    }
}

/// Returns true if none of these blocks is mixed and all have this number. No jump depends on the
/// blocks, so LLVM makes vector instructions of the loop.
#[inline(always)]
fn are_one(mixed: &[bool], places: &[u32], number: u32) -> bool {
    let mut all = true;
    for i in 0..places.len() {
        all &= !mixed[i] & (places[i] == number);
    }
    all
}

impl Blocks {
    /// Makes blocks that have this number at every code point.
    #[inline]
    pub(crate) fn new(number: u32) -> Result<Blocks, AllocError> {
        let mixed = copies(BLOCK_COUNT, false)?;
        let places = copies(BLOCK_COUNT, number)?;
        let cells = Vec::new();
        Ok(Blocks {
            mixed,
            places,
            cells,
        })
    }

    /// Gives block number `number` cells if it has none.
    #[inline]
    fn mix(&mut self, number: usize) -> Result<(), AllocError> {
        if self.mixed[number] {
            return Ok(());
        }
        let Ok(place) = u32::try_from(self.cells.len()) else {
            return Err(AllocError);
        };
        push_block(&mut self.cells, self.places[number])?;
        self.places[number] = place;
        self.mixed[number] = true;
        Ok(())
    }

    /// Gives the block of the code point `c` cells, unless the block starts at `c` or has cells
    /// already.
    ///
    /// Below 0x10000, the other blocks of the same aligned 64 code points then get cells too, so
    /// that these are next to each other.
    fn mix_around(&mut self, c: usize) -> Result<(), AllocError> {
        let number = c / 16;
        if c % 16 == 0 || self.mixed[number] {
            return Ok(());
        }
        if number >= FIRST_SINGLE {
            return self.mix(number);
        }
        let first = number - number % 4;
        for other in first..first + 4 {
            self.mix(other)?;
        }
        Ok(())
    }

    /// Writes a number to code points of one block.
    fn write_in_block(&mut self, start: usize, end: usize, number: u32) {
        let block = start / 16;
        if !self.mixed[block] {
            self.places[block] = number;
            return;
        }
        let place = self.places[block] as usize;
        fill_range(
            &mut self.cells[place],
            start - 16 * block,
            end - 16 * block,
            number,
        );
    }

    /// Writes a number to the code points `start..end`, block by block.
    #[inline]
    fn write_blocks(&mut self, start: usize, end: usize, number: u32) {
        let mut from = start;
        while from < end {
            let to = (from - from % 16 + 16).min(end);
            self.write_in_block(from, to, number);
            from = to;
        }
    }

    /// Writes a number to the code points `start..end`. All allocations happen before anything is
    /// written.
    #[inline]
    pub(crate) fn write(
        &mut self,
        start: usize,
        end: usize,
        number: u32,
    ) -> Result<(), AllocError> {
        self.mix_around(start)?;
        self.mix_around(end)?;
        self.write_blocks(start, end, number);
        Ok(())
    }

    /// Returns block number `number`.
    #[inline(always)]
    fn block(&self, number: usize) -> Block<'_> {
        if self.mixed[number] {
            return Block::Cells(&self.cells[self.places[number] as usize]);
        }
        Block::One(self.places[number])
    }

    /// Returns the number of the code point `c`.
    #[inline]
    pub(crate) fn number_of(&self, c: usize) -> u32 {
        match self.block(c / 16) {
            Block::One(number) => number,
            Block::Cells(cells) => cells[c % 16],
        }
    }

    /// Returns the first position in `from..16` of block number `block` with another number than
    /// this, or 16 if there is none.
    #[inline(always)]
    fn other_in_block(&self, block: usize, from: usize, number: u32) -> usize {
        match self.block(block) {
            Block::One(held) => {
                if held == number {
                    16
                } else {
                    from
                }
            }
            Block::Cells(cells) => {
                for i in from..16 {
                    if cells[i] != number {
                        return i;
                    }
                }
                16
            }
        }
    }

    /// Returns the first code point from `start` on with another number than this, or 0x110000 if
    /// there is none. It goes block by block.
    #[inline]
    pub(crate) fn find_other(&self, start: usize, number: u32) -> usize {
        let mut from = start;
        while from < CODE_POINT_LIMIT as usize {
            let first = from - from % 16;
            let other = self.other_in_block(from / 16, from % 16, number);
            if other < 16 {
                return first + other;
            }
            from = first + 16;
        }
        CODE_POINT_LIMIT as usize
    }

    /// Returns true if no block of a group is mixed and all have this number. The first of them is
    /// block number `first`.
    #[inline(always)]
    fn is_group_of(&self, first: usize, number: u32) -> bool {
        let end = first + GROUP;
        are_one(&self.mixed[first..end], &self.places[first..end], number)
    }

    /// Returns a number of blocks after which all have this number. It goes by groups of blocks.
    #[inline]
    fn used_groups(&self, number: u32) -> usize {
        let mut count = BLOCK_COUNT;
        while count >= GROUP && self.is_group_of(count - GROUP, number) {
            count -= GROUP;
        }
        count
    }

    /// Returns the number of blocks up to and including the last one that does not have this number
    /// throughout.
    #[inline]
    pub(crate) fn used(&self, number: u32) -> usize {
        let mut count = self.used_groups(number);
        while count > 0 {
            if self.other_in_block(count - 1, 0, number) < 16 {
                return count;
            }
            count -= 1;
        }
        0
    }

    /// Returns how many of the `most` blocks from block number `first` on hold only the number of
    /// `first`. It reads no cells: a mixed block ends the run.
    #[inline]
    pub(crate) fn run_of_one(&self, first: usize, most: usize) -> usize {
        let (mixed, places) = (
            &self.mixed[first..first + most],
            &self.places[first..first + most],
        );
        let number = self.places[first];
        let end = mixed
            .iter()
            .zip(places)
            .position(|(is_mixed, place)| *is_mixed || *place != number);
        end.unwrap_or(most)
    }

    /// Appends the numbers of `count` blocks, from block number `first` on, to `room`.
    pub(crate) fn copy(
        &self,
        first: usize,
        count: usize,
        room: &mut Vec<u32>,
    ) -> Result<(), AllocError> {
        for block in first..first + count {
            match self.block(block) {
                Block::One(number) => room.try_resize(room.len() + 16, number)?,
                Block::Cells(cells) => room.try_extend_from_slice(cells)?,
            }
        }
        Ok(())
    }
}
