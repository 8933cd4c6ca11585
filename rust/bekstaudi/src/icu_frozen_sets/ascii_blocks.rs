//! ASCII, eight bytes at a time: the table of a kind, and how many bytes are ASCII.

use crate::support::prelude::*;
/// Writes eight bits to the table, each as a byte that is 0 if the bit is.
#[inline(always)]
fn write_bits(others: &mut [u8; 256], start: usize, bits: u8) {
    for j in 0..8 {
        others[start + j] = bits & (1 << j);
    }
}

/// Returns a table for the kind with these words. It has 0 for each ASCII character that is of the
/// kind, and not for the other ones. It has 0 for bytes that are not ASCII.
#[inline(always)]
pub(crate) fn others_of(words: &[u64; 36]) -> [u8; 256] {
    let mut others = [0; 256];
    for k in 0..16 {
        let word = !words[k / 8];
        write_bits(&mut others, 8 * k, ((word >> (8 * (k % 8))) % 0x100) as u8);
    }
    others
}

/// Returns true if the table has 0 for each of eight bytes.
#[inline(always)]
fn are_plain(others: &[u8; 256], bytes: &[u8]) -> bool {
    let mut plain = true;
    for k in 0..8 {
        if others[usize::from(bytes[k])] != 0 {
            plain = false;
        }
    }
    plain
}

/// The highest bit of each of eight bytes.
const HIGH_BITS: u64 = 0x8080_8080_8080_8080;

/// Returns the highest bits of eight bytes, the first byte in the lowest bits.
#[inline(always)]
fn high_bits(bytes: &[u8]) -> u64 {
    HIGH_BITS
        & u64::from_le_bytes([
            bytes[0], bytes[1], bytes[2], bytes[3], bytes[4], bytes[5], bytes[6], bytes[7],
        ])
}

/// Returns the index of the first of eight bytes that is not ASCII, from their highest bits.
#[inline(always)]
fn first_high(high: u64) -> usize {
    (high.trailing_zeros() / 8) as usize
}

/// Passes ASCII for which the table has 0, eight bytes at a time, and returns the offset after it.
/// It stops at another character, or at the last seven bytes.
#[inline(always)]
pub(crate) fn skip_ascii_blocks(others: &[u8; 256], bytes: &[u8], start: usize) -> usize {
    let mut end = start;
    while bytes.len() - end >= 8 {
        let window = &bytes[end..end + 8];
        if !are_plain(others, window) {
            return end;
        }
        let high = high_bits(window);
        if high > 0 {
            return end + first_high(high);
        }
        end += 8;
    }
    end
}
