//! A trie for looking up the values of many characters.

use crate::icu_trie::cptrie::CodePointTrie;
use crate::icu_trie::view::TrieView;
use crate::icu_trie_core::value::TrieValue;
use crate::icu_trie_text::part_values::PartValues;
use crate::icu_zerovec::ZeroSlice;
use crate::support::AllocError;
use crate::support::prelude::*;

/// The number of ASCII code points.
const ASCII_END: u8 = 0x80;

/// A trie for looking up the values of many characters. If its data start with the values of ASCII,
/// as ICU's builder and this library's builder write them, such a value takes a single read.
///
/// It has the trie's slices itself: a loop keeps them in registers, since no call can change them.
#[derive(Debug)]
pub(crate) struct TextLookup<'a, T: TrieValue> {
    view: TrieView<'a, T>,
    /// The first bytes of the data, which are the values of ASCII if `ascii_end` is not 0 and each
    /// takes one byte.
    ascii: &'a [u8; 0x80],
    /// The code points below this number have their values at their own index in the data. It is
    /// 0x80 or 0.
    ascii_end: u8,
    /// The number of blocks of 64 code points in the fast index.
    blocks: u32,
    /// The offsets of the blocks of characters of two bytes.
    two_bytes: &'a [[u8; 2]; 32],
}

impl<'a, T: TrieValue> Clone for TextLookup<'a, T> {
    #[inline(always)]
    fn clone(&self) -> TextLookup<'a, T> {
        *self
    }
}

impl<'a, T: TrieValue> Copy for TextLookup<'a, T> {}

/// Returns 0x80 if the first two blocks of the trie are the first two blocks of the data, and
/// otherwise 0. The code points below the result have their values at their own index in the data.
#[inline]
fn ascii_end<T: TrieValue>(index: ZeroSlice<'_, u16>, values: ZeroSlice<'_, T>) -> u8 {
    if values.len() < ASCII_END as usize {
        return 0;
    }
    if index.get(0) != Some(0) {
        return 0;
    }
    if index.get(1) != Some(64) {
        return 0;
    }
    ASCII_END
}

/// Returns the first 128 bytes of values, or zeros if there are fewer.
#[inline(always)]
fn first_bytes<'a, T: TrieValue>(values: ZeroSlice<'a, T>) -> &'a [u8; 0x80] {
    values
        .as_bytes()
        .first_chunk::<0x80>()
        .unwrap_or(&[0; 0x80])
}

/// Returns the first 32 cells of an index, or zeros if there are fewer.
#[inline(always)]
fn first_cells<'a>(index: ZeroSlice<'a, u16>) -> &'a [[u8; 2]; 32] {
    index
        .as_bytes()
        .as_chunks::<2>()
        .0
        .first_chunk::<32>()
        .unwrap_or(&[[0; 2]; 32])
}

impl<'a, T: TrieValue> TextLookup<'a, T> {
    /// Borrows the trie.
    #[inline]
    pub(crate) fn new(trie: &'a CodePointTrie<'_, T>) -> TextLookup<'a, T> {
        let view = trie.as_view();
        let (_, index, values) = view.parts();
        TextLookup {
            view,
            ascii: first_bytes(values),
            ascii_end: ascii_end(index, values),
            blocks: view.fast_blocks() as u32,
            two_bytes: first_cells(index),
        }
    }

    /// Returns the data.
    #[inline(always)]
    fn values(&self) -> ZeroSlice<'a, T> {
        self.view.parts().2
    }

    /// Returns the value of an ASCII code point if it is known to be at its own index in the data.
    #[inline(always)]
    pub(crate) fn in_place(&self, c: u32) -> Option<T> {
        self.values().get_below(self.ascii_end as usize, c as usize)
    }

    /// Returns the value of the code point at index `place` in a block of 64.
    #[inline(always)]
    pub(crate) fn at(&self, block: u32, place: u32) -> T {
        match self.value_in_block(block, place) {
            Some(value) => value,
            None => self.view.get32(block * 64 + place),
        }
    }

    /// Returns what [`at`](Self::at) returns, for a block of characters of two bytes.
    #[inline(always)]
    pub(crate) fn at_two(&self, block: u32, place: u32) -> T {
        // The remainder is the block itself: the compiler then knows that there is an offset.
        let offset = u16::from_le_bytes(self.two_bytes[block as usize % 32]);
        let (_, _, values) = self.view.parts();
        values.at(usize::from(offset) + place as usize)
    }

    /// Returns the value of a character.
    #[inline(always)]
    pub(crate) fn get(&self, c: char) -> T {
        let c = u32::from(c);
        self.at(c / 64, c % 64)
    }

    /// Returns the value of a character, for those of four bytes: no fast index has their blocks.
    #[inline(always)]
    pub(crate) fn get_four(&self, c: char) -> T {
        self.view.get(c)
    }
}

impl<'a, T: TrieValue> PartValues<T> for TextLookup<'a, T> {
    #[inline(always)]
    fn ascii_end(&self) -> u8 {
        self.ascii_end
    }

    #[inline(always)]
    fn blocks(&self) -> u32 {
        self.blocks
    }

    #[inline(always)]
    fn ascii(&self, c: u8) -> T {
        // The remainder is `c` itself: the compiler then knows that there is such a byte.
        if T::WIDTH == 1
            && let Some(value) = T::from_unaligned(&[self.ascii[usize::from(c) % 0x80]])
        {
            return value;
        }
        self.values().at(c as usize)
    }

    #[inline(always)]
    fn value_in_fast_block(&self, block: u32, place: u32) -> T {
        self.view.value_in_fast_block(block as usize, place)
    }

    #[inline(always)]
    fn value_in_block(&self, block: u32, place: u32) -> Option<T> {
        self.view
            .value_in_block(self.blocks as usize, block as usize, place)
    }

    #[inline(always)]
    fn value(&self, c: u32) -> T {
        self.view.get32(c)
    }

    #[inline(always)]
    fn error(&self) -> T {
        self.view.error_value()
    }
}
