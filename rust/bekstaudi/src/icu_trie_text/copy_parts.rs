//! The values of the parts of bytes, written to a buffer.

use crate::icu_trie_text::any_bytes::{AnyBytes, outlined_first_value};
use crate::icu_trie_text::part_values::{PartValues, Reading, THREE_BYTE_BLOCKS, TWO_BYTE_BLOCKS};
use crate::icu_trie_text::well_formed::WellFormed;
use crate::support::prelude::*;

/// How many values a function copied to a buffer, and how many bytes of the text they stand for.
#[derive(Clone, Copy, Debug, PartialEq, Eq, Hash)]
pub struct Copied {
    /// The number of values at the start of the buffer.
    pub values: usize,
    /// The number of bytes at the start of the text whose values these are.
    pub bytes: usize,
}

/// How many bytes a block has. In a longer one few characters that are not ASCII would slow down
/// many that are.
const BLOCK: usize = 16;

/// How many bytes have to be left for a block: then each read of its parts is within the bytes.
const BYTES_AHEAD: usize = 32;

/// The highest bit of each of eight bytes.
const HIGH_BITS: u64 = 0x8080_8080_8080_8080;

/// The first eight bytes as a number, the first byte lowest. It is a single read.
#[inline(always)]
fn word_of(bytes: &[u8]) -> u64 {
    match bytes.first_chunk::<8>() {
        Some(eight) => u64::from_le_bytes(*eight),
        None => unreachable!(),
    }
}

/// Returns true if the first sixteen bytes are ASCII.
#[inline(always)]
fn are_ascii(bytes: &[u8]) -> bool {
    let first = word_of(bytes) & HIGH_BITS;
    let second = word_of(&bytes[8..]) & HIGH_BITS;
    first | second == 0
}

/// Writes the values of the next sixteen bytes, which are ASCII.
#[inline(always)]
fn copy_sixteen<T: Copy, V: PartValues<T>>(
    trie: &V,
    bytes: &[u8],
    values: &mut [T],
    front: Copied,
) -> Copied {
    let (i, j) = (front.bytes, front.values);
    let ascii = &bytes[i..i + 16];
    let target = &mut values[j..j + 16];
    for k in 0..16 {
        target[k] = trie.ascii(ascii[k]);
    }
    Copied {
        values: j + 16,
        bytes: i + 16,
    }
}

/// Writes the values of the parts that start in the next block, which has sixteen bytes.
#[inline(always)]
fn copy_block<T: Copy, V: PartValues<T>, R: Reading<T, V>>(
    trie: &V,
    bytes: &[u8],
    values: &mut [T],
    front: Copied,
) -> Copied {
    let mut rest = &bytes[front.bytes..];
    let mut j = front.values;
    let left = rest.len() - BLOCK;
    while rest.len() > left {
        let (value, size) = R::first_value(trie, rest);
        values[j] = value;
        rest = &rest[size..];
        j += 1;
    }
    Copied {
        values: j,
        bytes: bytes.len() - rest.len(),
    }
}

/// Writes the values of the first parts of the bytes, as long as many bytes and room for a block
/// are left. Sixteen ASCII bytes take one test.
#[inline(always)]
fn copy_front<T: Copy, V: PartValues<T>, R: Reading<T, V>>(
    trie: &V,
    bytes: &[u8],
    values: &mut [T],
) -> Copied {
    // LLVM reads the addresses in a copy once: no write to the buffer can change it.
    let table = *trie;
    let mut front = Copied {
        values: 0,
        bytes: 0,
    };
    while bytes.len() - front.bytes >= BYTES_AHEAD && values.len() - front.values >= BLOCK {
        if are_ascii(&bytes[front.bytes..]) {
            front = copy_sixteen(&table, bytes, values, front);
        } else {
            front = copy_block::<T, V, R>(&table, bytes, values, front);
        }
    }
    front
}

/// Writes the values of the parts of the bytes that are left to the rest of the buffer.
#[inline(always)]
fn copy_rest<T: Copy, V: PartValues<T>>(
    trie: &V,
    bytes: &[u8],
    values: &mut [T],
    front: Copied,
) -> Copied {
    let mut i = front.bytes;
    let mut j = front.values;
    while i < bytes.len() && j < values.len() {
        let lead = bytes[i];
        if lead < trie.ascii_end() {
            values[j] = trie.ascii(lead);
            i += 1;
        } else {
            let (value, size) = outlined_first_value(trie, &bytes[i..]);
            values[j] = value;
            i += size;
        }
        j += 1;
    }
    Copied {
        values: j,
        bytes: i,
    }
}

/// Writes the values of the parts of the bytes to the start of the buffer, as many as fit.
#[inline(always)]
fn copy_by<T: Copy, V: PartValues<T>, R: Reading<T, V>>(
    trie: &V,
    bytes: &[u8],
    values: &mut [T],
) -> Copied {
    let mut front = Copied {
        values: 0,
        bytes: 0,
    };
    if trie.ascii_end() == 0x80 && trie.blocks() >= TWO_BYTE_BLOCKS {
        front = copy_front::<T, V, R>(trie, bytes, values);
    }
    copy_rest(trie, bytes, values, front)
}

/// Writes the values of the parts of the bytes to the start of the buffer, as many as fit. Returns
/// how many these are, and how many bytes the parts take. The rest of the buffer is unchanged.
///
/// Public for the crates that build on this one.
#[inline(always)]
pub fn copy_parts<T: Copy, V: PartValues<T>>(trie: &V, bytes: &[u8], values: &mut [T]) -> Copied {
    copy_by::<T, V, AnyBytes>(trie, bytes, values)
}

/// Writes the values of the characters of well-formed UTF-8 as [`copy_parts`] does, in less time.
///
/// Public for the crates that build on this one.
#[inline(always)]
pub(crate) fn copy_characters<T: Copy, V: PartValues<T>>(
    trie: &V,
    text: &[u8],
    values: &mut [T],
) -> Copied {
    if trie.blocks() >= THREE_BYTE_BLOCKS {
        copy_by::<T, V, WellFormed<THREE_BYTE_BLOCKS>>(trie, text, values)
    } else {
        copy_by::<T, V, WellFormed<0>>(trie, text, values)
    }
}
