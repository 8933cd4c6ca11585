//! Values of the parts of bytes, and how they are read.

use crate::support::prelude::*;
/// The values of characters and of ill-formed parts, for
/// [`copy_parts`](crate::icu_trie_text::copy_parts::copy_parts).
///
/// It is `Copy`, so that a loop can read a copy that no write to the buffer can change.
///
/// Public for the crates that build on this one.
pub trait PartValues<T>: Copy {
    /// Returns the number up to which [`ascii`](Self::ascii) has the values: 0x80 or 0.
    fn ascii_end(&self) -> u8;

    /// Returns the number of blocks of 64 code points whose values
    /// [`value_in_fast_block`](Self::value_in_fast_block) has.
    fn blocks(&self) -> u32;

    /// Returns the value of an ASCII code point.
    fn ascii(&self, c: u8) -> T;

    /// Returns the value of the code point at a position in a block of 64 code points.
    fn value_in_fast_block(&self, block: u32, place: u32) -> T;

    /// Returns the value that [`value_in_fast_block`](Self::value_in_fast_block) returns, or `None` if the block is not one of
    /// [`blocks`](Self::blocks).
    #[inline(always)]
    fn value_in_block(&self, block: u32, place: u32) -> Option<T> {
        if block >= self.blocks() {
            return None;
        }
        Some(self.value_in_fast_block(block, place))
    }

    /// Returns the value of any code point.
    fn value(&self, c: u32) -> T;

    /// Returns the value of an ill-formed part.
    fn error(&self) -> T;
}

/// The number of blocks of 64 code points of two bytes in UTF-8.
pub(crate) const TWO_BYTE_BLOCKS: u32 = 0x20;

/// The number of blocks of 64 code points below 0x10000, which take at most three bytes.
pub(crate) const THREE_BYTE_BLOCKS: u32 = 0x400;

/// How the value of the first part is read: from any bytes, or only from well-formed ones.
pub(crate) trait Reading<T, V: PartValues<T>> {
    /// Returns the value of the first part of the bytes, and its size in bytes. There are at least
    /// four bytes.
    fn first_value(trie: &V, bytes: &[u8]) -> (T, usize);
}
