//! Writes the header of the binary form.

use crate::icu_trie::header::TrieType;
use crate::icu_trie_binary::header::{BinaryHeader, HEADER_SIZE, SIGNATURE, ValueWidth};
use crate::support::prelude::*;

/// Returns the code of a type in the options.
#[inline]
fn type_code(trie_type: TrieType) -> u32 {
    match trie_type {
        TrieType::Fast => 0,
        TrieType::Small => 1,
    }
}

/// Returns the code of a width in the options.
#[inline]
fn width_code(width: ValueWidth) -> u32 {
    match width {
        ValueWidth::Bits16 => 0,
        ValueWidth::Bits32 => 1,
        ValueWidth::Bits8 => 2,
    }
}

/// Returns the width of values of `width` bytes, which is 1, 2 or 4.
#[inline]
pub(crate) fn width_for(width: usize) -> ValueWidth {
    match width {
        2 => ValueWidth::Bits16,
        4 => ValueWidth::Bits32,
        _ => ValueWidth::Bits8,
    }
}

/// Returns the options of a header.
#[inline]
fn options_for(header: &BinaryHeader) -> u16 {
    let upper = header.data_length / 0x1_0000 * 0x1000 + header.data_null_offset / 0x1_0000 * 0x100;
    (upper + type_code(header.trie_type) * 0x40 + width_code(header.value_width)) as u16
}

/// Returns the bytes of a header.
#[inline]
pub(crate) fn header_bytes(header: &BinaryHeader) -> [u8; HEADER_SIZE] {
    let [s0, s1, s2, s3] = SIGNATURE.to_le_bytes();
    let [o0, o1] = options_for(header).to_le_bytes();
    let [i0, i1] = header.index_length.to_le_bytes();
    let [d0, d1] = ((header.data_length % 0x1_0000) as u16).to_le_bytes();
    let [b0, b1] = header.index3_null_offset.to_le_bytes();
    let [n0, n1] = ((header.data_null_offset % 0x1_0000) as u16).to_le_bytes();
    let [h0, h1] = header.shifted_high_start.to_le_bytes();
    [
        s0, s1, s2, s3, o0, o1, i0, i1, d0, d1, b0, b1, n0, n1, h0, h1,
    ]
}
