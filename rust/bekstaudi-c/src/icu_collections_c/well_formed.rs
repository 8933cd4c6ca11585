//! Whether bytes are UTF-8, and how many characters they have. The test has two bodies under one
//! contract: `proved` for Rattle, `tested` for rustc.
use crate::support::prelude::*;
mod tested;

pub(crate) use tested::is_utf8;

/// Returns true if the byte is a trail byte.
#[inline(always)]
pub(crate) fn is_trail(byte: u8) -> bool {
    (0x80 <= byte) & (byte < 0xC0)
}

/// Returns how many characters the bytes have, which are UTF-8: one for each byte that is not a
/// trail byte.
#[inline]
pub(crate) fn count_of_characters(bytes: &[u8]) -> usize {
    let mut count = 0;
    for i in 0..bytes.len() {
        if !is_trail(bytes[i]) {
            count += 1;
        }
    }
    count
}
