//! The header of the binary form, before index and data: UCPTrieHeader of ICU4C's `ucptrie_impl.h`.

use crate::icu_trie::header::TrieType;
use crate::icu_trie_binary::error::BinaryError;
use crate::support::prelude::*;

/// The size of the header in bytes.
pub(crate) const HEADER_SIZE: usize = 16;

/// `Tri3` (UCPTRIE_SIG).
pub(crate) const SIGNATURE: u32 = 0x5472_6933;

/// The signature if its bytes are read in the other order.
const SWAPPED_SIGNATURE: u32 = 0x3369_7254;

/// The number of bits of a value (UCPTrieValueWidth).
#[derive(Clone, Copy, Debug, PartialEq, Eq)]
pub(crate) enum ValueWidth {
    Bits16,
    Bits32,
    Bits8,
}

impl ValueWidth {
    /// Returns the number of bytes of a value: 2, 4 or 1.
    #[inline]
    pub(crate) fn bytes(self) -> usize {
        match self {
            ValueWidth::Bits16 => 2,
            ValueWidth::Bits32 => 4,
            ValueWidth::Bits8 => 1,
        }
    }
}

/// The contents of the header, with the options split up and the two 20-bit numbers joined.
#[derive(Clone, Copy, Debug)]
pub(crate) struct BinaryHeader {
    pub(crate) trie_type: TrieType,
    pub(crate) value_width: ValueWidth,
    /// The number of cells of the index.
    pub(crate) index_length: u16,
    /// The number of cells of the data.
    pub(crate) data_length: u32,
    pub(crate) index3_null_offset: u16,
    pub(crate) data_null_offset: u32,
    /// The high start without its lowest 9 bits, which are 0.
    pub(crate) shifted_high_start: u16,
}

/// Returns the 16-bit number whose lower byte is byte `i`.
#[inline]
pub(crate) fn u16_at(bytes: &[u8], i: usize) -> u16 {
    u16::from_le_bytes([bytes[i], bytes[i + 1]])
}

/// Returns the first four bytes as a number, whether or not it is the signature of a trie.
#[inline]
fn signature_of(bytes: &[u8]) -> u32 {
    u32::from(u16_at(bytes, 0)) + u32::from(u16_at(bytes, 2)) * 0x1_0000
}

/// Checks that the bytes have the length of a header and the signature of a trie.
#[inline]
fn signed(bytes: &[u8]) -> Result<(), BinaryError> {
    if bytes.len() < HEADER_SIZE {
        return Err(BinaryError::Short);
    }
    match signature_of(bytes) {
        SIGNATURE => Ok(()),
        SWAPPED_SIGNATURE => Err(BinaryError::Swapped),
        _ => Err(BinaryError::Signature),
    }
}

/// Returns the type in the options.
#[inline]
fn type_of(options: u16) -> Option<TrieType> {
    match options / 0x40 % 4 {
        0 => Some(TrieType::Fast),
        1 => Some(TrieType::Small),
        _ => None,
    }
}

/// Returns the width in the options.
#[inline]
fn width_of(options: u16) -> Option<ValueWidth> {
    match options % 8 {
        0 => Some(ValueWidth::Bits16),
        1 => Some(ValueWidth::Bits32),
        2 => Some(ValueWidth::Bits8),
        _ => None,
    }
}

/// Returns the header with this type and width, and the numbers in the bytes.
#[inline]
fn fields_of(bytes: &[u8], trie_type: TrieType, value_width: ValueWidth) -> BinaryHeader {
    let options = u32::from(u16_at(bytes, 4));
    BinaryHeader {
        trie_type,
        value_width,
        index_length: u16_at(bytes, 6),
        data_length: options / 0x1000 * 0x1_0000 + u32::from(u16_at(bytes, 8)),
        index3_null_offset: u16_at(bytes, 10),
        data_null_offset: options / 0x100 % 0x10 * 0x1_0000 + u32::from(u16_at(bytes, 12)),
        shifted_high_start: u16_at(bytes, 14),
    }
}

/// Returns the contents of the header, or its first error.
#[inline(always)]
pub(crate) fn header_of(bytes: &[u8]) -> Result<BinaryHeader, BinaryError> {
    signed(bytes)?;
    let options = u16_at(bytes, 4);
    let Some(trie_type) = type_of(options) else {
        return Err(BinaryError::UnknownType);
    };
    let Some(value_width) = width_of(options) else {
        return Err(BinaryError::UnknownWidth);
    };
    if !(options / 8).is_multiple_of(8) {
        return Err(BinaryError::Reserved);
    }
    Ok(fields_of(bytes, trie_type, value_width))
}

/// Returns the number of bytes of header, index and data.
#[inline]
pub(crate) fn stored_length(header: &BinaryHeader) -> usize {
    let index = 2 * header.index_length as usize;
    let data = header.value_width.bytes() * header.data_length as usize;
    HEADER_SIZE + index + data
}

/// Returns the header of a trie whose values take `width` bytes and whose cells are all present,
/// and the number of bytes that the trie takes.
#[inline(always)]
pub(crate) fn stored_header(
    bytes: &[u8],
    width: usize,
) -> Result<(BinaryHeader, usize), BinaryError> {
    let header = header_of(bytes)?;
    if header.value_width.bytes() != width {
        return Err(BinaryError::OtherWidth);
    }
    let len = stored_length(&header);
    if bytes.len() < len {
        return Err(BinaryError::CutOff);
    }
    Ok((header, len))
}
