//! A trie wherever its cells are stored, and the look-up of a value.

use crate::icu_trie_core::error::CodePointTrieError;
use crate::icu_trie_core::header::{CodePointTrieHeader, TrieType};
use crate::icu_trie_core::impl_const::{
    BMP_INDEX_LENGTH, CODE_POINT_MAX, FAST_TYPE_DATA_BLOCK_LENGTH, FAST_TYPE_SHIFT,
    HIGH_VALUE_NEG_DATA_OFFSET, INDEX_2_MASK, INDEX_3_MASK, OMITTED_BMP_INDEX_1_LENGTH, SHIFT_1,
    SHIFT_2, SHIFT_3, SMALL_DATA_MASK, SMALL_INDEX_LENGTH,
};
use crate::icu_trie_core::lookup::long_offset_of;
use crate::icu_trie_core::value::TrieValue;
use crate::icu_zerovec::ZeroSlice;
use crate::support::AllocError;
use crate::support::prelude::*;

/// Returns true if the fast index names a block of 64 that ends outside data of length `len`. The
/// index must have all cells of the fast index.
// The greatest cell decides. LLVM vectorises a maximum but no test for each cell, and it uses more
// registers for two halves.
#[inline]
fn fast_block_passes(trie_type: TrieType, index: ZeroSlice<'_, u16>, len: usize) -> bool {
    let half = trie_type.fast_index_len() / 2;
    // One bounds check for all cells.
    let cells = index.prefix(2 * half);
    let (mut lower, mut upper) = (0, 0);
    for i in 0..half {
        lower = cells.at(i).max(lower);
        upper = cells.at(half + i).max(upper);
    }
    len < lower.max(upper) as usize + FAST_TYPE_DATA_BLOCK_LENGTH as usize
}

/// Returns true if a number is the number of a value.
#[inline]
fn is_number_of_value<T: TrieValue>(number: u32) -> bool {
    T::try_from_u32(number).is_ok()
}

/// Returns the index-2 cell of a code point.
#[inline(always)]
fn index2_cell_of(trie_type: TrieType, index: ZeroSlice<'_, u16>, c: u32) -> Option<u16> {
    let index1_start = match trie_type {
        TrieType::Fast => BMP_INDEX_LENGTH - OMITTED_BMP_INDEX_1_LENGTH,
        TrieType::Small => SMALL_INDEX_LENGTH,
    };
    let block = index.get(((c >> SHIFT_1) + index1_start) as usize)?;
    index.get(block as usize + ((c >> SHIFT_2) & INDEX_2_MASK) as usize)
}

/// Returns data offset number `place`, one of 32, of the index-3 block that an index-2 cell names.
#[inline(always)]
fn offset_of(index: ZeroSlice<'_, u16>, index2_cell: u16, place: u32) -> Option<u32> {
    if index2_cell & 0x8000 == 0 {
        let offset = index.get(index2_cell as usize + place as usize)?;
        return Some(offset as u32);
    }
    let group = (index2_cell & 0x7fff) as usize + ((place & !7) + (place >> 3)) as usize;
    let place_in_group = place & 7;
    let high = index.get(group)?;
    let low = index.get(group + 1 + place_in_group as usize)?;
    Some(long_offset_of(high, low, place_in_group))
}

/// Returns the data position of a code point from the fast limit on and below the high start,
/// through the three stages of the index. Returns `None` if a cell of the index is missing.
#[inline(always)]
fn small_place_of(trie_type: TrieType, index: ZeroSlice<'_, u16>, c: u32) -> Option<usize> {
    let index2_cell = index2_cell_of(trie_type, index, c)?;
    let offset = offset_of(index, index2_cell, (c >> SHIFT_3) & INDEX_3_MASK)?;
    Some(offset as usize + (c & SMALL_DATA_MASK) as usize)
}

/// A code point trie wherever its cells are stored: a header and two borrowed slices of packed
/// cells. It is `Copy`, and has no memory of its own.
///
/// Its parts were checked as [`CodePointTrie::try_new`](crate::icu_trie::cptrie::CodePointTrie::try_new)
/// checks them.
#[derive(Debug)]
pub struct TrieView<'a, T: TrieValue> {
    header: CodePointTrieHeader,
    index: ZeroSlice<'a, u16>,
    data: ZeroSlice<'a, T>,
}

impl<'a, T: TrieValue> Clone for TrieView<'a, T> {
    #[inline(always)]
    fn clone(&self) -> TrieView<'a, T> {
        *self
    }
}

impl<'a, T: TrieValue> Copy for TrieView<'a, T> {}

/// Views and their parts.
impl<'a, T: TrieValue> TrieView<'a, T> {
    /// Makes a view of these parts.
    ///
    /// # Errors
    /// Returns the error that [`CodePointTrie::try_new`](crate::icu_trie::cptrie::CodePointTrie::try_new)
    /// returns for them.
    #[inline(always)]
    pub fn try_new(
        header: CodePointTrieHeader,
        index: ZeroSlice<'a, u16>,
        data: ZeroSlice<'a, T>,
    ) -> Result<Self, CodePointTrieError> {
        if data.is_empty() {
            return Err(CodePointTrieError::EmptyDataVector);
        }
        if !is_number_of_value::<T>(header.null_value) {
            return Err(CodePointTrieError::InvalidNullValue);
        }
        if index.len() < header.trie_type.fast_index_len() {
            return Err(CodePointTrieError::IndexTooShortForFastAccess);
        }
        if fast_block_passes(header.trie_type, index, data.len()) {
            return Err(CodePointTrieError::DataTooShortForFastAccess);
        }
        Ok(TrieView {
            header,
            index,
            data,
        })
    }

    /// Makes a view of the parts of a trie.
    #[inline(always)]
    pub(crate) fn of_trie(
        header: CodePointTrieHeader,
        index: ZeroSlice<'a, u16>,
        data: ZeroSlice<'a, T>,
    ) -> Self {
        TrieView {
            header,
            index,
            data,
        }
    }

    /// Returns the header, the index and the data. [`try_new`](Self::try_new) accepts them again.
    #[inline(always)]
    #[must_use]
    pub fn parts(&self) -> (CodePointTrieHeader, ZeroSlice<'a, u16>, ZeroSlice<'a, T>) {
        (self.header, self.index, self.data)
    }

    /// Returns the number of blocks of 64 code points in the fast index: 1,024 if the type is
    /// `Fast`, and 64 if it is `Small`.
    #[inline(always)]
    #[must_use]
    pub fn fast_blocks(&self) -> usize {
        self.header.trie_type.fast_index_len()
    }
}

/// The position of a value.
impl<'a, T: TrieValue> TrieView<'a, T> {
    /// Returns the position of the last of `cells` cells, the error value. It takes the number by
    /// value, so that a view on the stack need not be stored for the call.
    #[cold]
    #[inline(never)]
    fn outside_place(cells: usize) -> usize {
        cells - 1
    }

    /// Returns the position of the value of code point number `place` in a block of 64 of the fast
    /// index, in one read of the index and with one test. Returns `None` if it has no such block.
    #[inline(always)]
    fn block_place(&self, blocks: usize, block: usize, place: u32) -> Option<usize> {
        match self.index.get_likely_below(blocks, block) {
            Some(offset) => Some(offset as usize + place as usize),
            None => None,
        }
    }

    /// Returns the position of the value of a code point below the fast limit of this type. Returns
    /// `None` from the fast limit on.
    #[inline(always)]
    fn fast_place(&self, trie_type: TrieType, c: u32) -> Option<usize> {
        let block = (c >> FAST_TYPE_SHIFT) as usize;
        self.block_place(
            trie_type.fast_index_len(),
            block,
            c % FAST_TYPE_DATA_BLOCK_LENGTH,
        )
    }

    /// Returns the position of the value of `c` through the three stages of the index, with a
    /// bounds check for each read. An untrusted index may lead outside the data.
    ///
    /// A call would cost a loop over code points above the fast limit half as much time again.
    #[inline(always)]
    fn small_place(&self, c: u32) -> usize {
        match small_place_of(self.header.trie_type, self.index, c) {
            Some(place) => place,
            None => self.data.len() - 1,
        }
    }

    /// Returns the position of the value of a code point from the fast limit on, and whether it is
    /// known to be inside the data.
    #[inline(always)]
    fn slow_place(&self, c: u32) -> (usize, bool) {
        if c >= self.header.high_start {
            return (self.data.len() - HIGH_VALUE_NEG_DATA_OFFSET as usize, true);
        }
        (self.small_place(c), false)
    }

    /// Returns the position of the value of `c` in a trie of this type, and whether it is known to
    /// be inside the data. All cases share the read of the value that follows, so that the compiler
    /// keeps the address of the data in a register.
    #[inline(always)]
    fn place_by_type(&self, trie_type: TrieType, c: u32) -> (usize, bool) {
        if let Some(place) = self.fast_place(trie_type, c) {
            return (place, true);
        }
        if c > CODE_POINT_MAX {
            return (Self::outside_place(self.data.len()), true);
        }
        self.slow_place(c)
    }

    /// Returns the position of the value of `c`. An untrusted index may lead outside the data.
    #[inline]
    pub(crate) fn place(&self, c: u32) -> usize {
        self.place_by_type(self.header.trie_type, c).0
    }

    /// Returns the position of the value of the character `c` in a trie of this type, and whether it
    /// is known to be inside the data. No character is above 0x10FFFF.
    #[inline(always)]
    fn character_place(&self, trie_type: TrieType, c: char) -> (usize, bool) {
        let c = c as u32;
        if let Some(place) = self.fast_place(trie_type, c) {
            return (place, true);
        }
        self.slow_place(c)
    }

    /// Returns the value at a position, or the error value if it is outside the data. A position
    /// that is known to be inside needs no test.
    #[inline(always)]
    fn value_at(&self, place: (usize, bool)) -> T {
        if let Some(value) = self.data.get_known(place.0, place.1) {
            return value;
        }
        self.data.at(Self::outside_place(self.data.len()))
    }
}

/// Values by the block of 64 or the type of the trie, for callers that know more than a number.
impl<'a, T: TrieValue> TrieView<'a, T> {
    /// Returns the value of code point number `place` in a block of 64 of the fast index, in two
    /// reads and with one test. Returns `None` if it has no such block.
    ///
    /// `blocks` must be [`fast_blocks`](Self::fast_blocks), which a loop keeps in a register.
    #[inline(always)]
    pub(crate) fn value_in_block(&self, blocks: usize, block: usize, place: u32) -> Option<T> {
        match self.block_place(blocks, block, place) {
            Some(at) => Some(self.data.at(at)),
            None => None,
        }
    }

    /// Returns the value of code point number `place` in a block of 64 that the fast index has, in
    /// two reads.
    #[inline(always)]
    pub(crate) fn value_in_fast_block(&self, block: usize, place: u32) -> T {
        let offset = self.index.at(block);
        self.data.at(offset as usize + place as usize)
    }

    /// Returns the value of a code point below the fast limit, in two reads.
    #[inline(always)]
    fn fast_value(&self, c: u32) -> T {
        let block = (c >> FAST_TYPE_SHIFT) as usize;
        self.value_in_fast_block(block, c % FAST_TYPE_DATA_BLOCK_LENGTH)
    }

    /// Returns the value of `c` in a trie of this type if `c` is below the fast limit, in two reads.
    #[inline(always)]
    pub(crate) fn fast_value_by_type(&self, trie_type: TrieType, c: u32) -> Option<T> {
        match self.fast_place(trie_type, c) {
            Some(place) => Some(self.data.at(place)),
            None => None,
        }
    }

    /// Returns the value of `c` in a trie of this type.
    #[inline(always)]
    pub(crate) fn value_by_type(&self, trie_type: TrieType, c: u32) -> T {
        self.value_at(self.place_by_type(trie_type, c))
    }

    /// Returns the value of the character `c` in a trie of this type.
    #[inline(always)]
    pub(crate) fn character_by_type(&self, trie_type: TrieType, c: char) -> T {
        self.value_at(self.character_place(trie_type, c))
    }
}

/// The getters of a trie.
impl<'a, T: TrieValue> TrieView<'a, T> {
    /// Returns the value of the code point `c`, or the error value if `c` is above 0x10FFFF or if
    /// the trie lacks a cell for it.
    #[inline(always)]
    #[must_use]
    pub fn get32(&self, c: u32) -> T {
        self.value_by_type(self.header.trie_type, c)
    }

    /// Returns the value of the character `c`.
    #[inline(always)]
    #[must_use]
    pub fn get(&self, c: char) -> T {
        self.character_by_type(self.header.trie_type, c)
    }

    /// Returns the value of a code point in the Basic Multilingual Plane (0..=0xFFFF), which may be
    /// a surrogate.
    #[inline(always)]
    #[must_use]
    pub fn get16(&self, bmp: u16) -> T {
        let c = u32::from(bmp);
        match self.header.trie_type {
            TrieType::Fast => self.fast_value(c),
            TrieType::Small => self.value_by_type(TrieType::Small, c),
        }
    }

    /// Returns the number of the value of the code point `c`: the `to_u32` of what
    /// [`get32`](Self::get32) returns.
    #[inline(always)]
    #[must_use]
    pub fn get32_u32(&self, c: u32) -> u32 {
        self.get32(c).to_u32()
    }

    /// Returns the error value, which is the value of all numbers above 0x10FFFF: the last cell of
    /// the data.
    #[inline(always)]
    #[must_use]
    pub fn error_value(&self) -> T {
        self.data.at(self.data.len() - 1)
    }
}
