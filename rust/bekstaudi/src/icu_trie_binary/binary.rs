//! Reads tries from ICU's binary form, which `ucptrie_toBinary` writes, in place; and writes tries
//! in this form.
//!
//! ```
//! use bekstaudi::codepointtrie::{CodePointTrieBuilder, TrieType, binary};
//!
//! let mut builder = CodePointTrieBuilder::new(0u8, 9, TrieType::Small);
//! builder.set_range_value(0x41..=0x5A, 1);
//! let bytes = binary::to_binary(&builder.build())?;
//! // The bytes of a file are read in place, at any address.
//! let (trie, size) = binary::from_binary::<u8>(&bytes)?;
//! assert_eq!((trie.get('A'), size), (1, bytes.len()));
//! # Ok::<(), Box<dyn std::error::Error>>(())
//! ```

use crate::icu_trie::cptrie::CodePointTrie;
use crate::icu_trie::header::CodePointTrieHeader;
use crate::icu_trie::value::TrieValue;
pub use crate::icu_trie_binary::error::{BinaryError, SwappedError, WriteError};
use crate::icu_trie_binary::header::{
    BinaryHeader, HEADER_SIZE, ValueWidth, header_of, stored_header,
};
pub use crate::icu_trie_binary::swapped::from_binary_swapped;
pub use crate::icu_trie_binary::write::{binary_len, to_binary, write_binary};
use crate::icu_zerovec::ule::UleError;
use crate::icu_zerovec::{ZeroSlice, ZeroVec};
use crate::support::prelude::*;

/// Returns the index, read in place.
#[inline]
fn index_of<'a>(bytes: &'a [u8], header: &BinaryHeader) -> ZeroVec<'a, u16> {
    let index = &bytes[HEADER_SIZE..HEADER_SIZE + 2 * header.index_length as usize];
    match ZeroVec::parse_bytes(index) {
        Ok(index) => index,
        Err(_) => unreachable!(),
    }
}

/// Returns the bytes of the data.
#[inline]
fn data_bytes<'a>(bytes: &'a [u8], header: &BinaryHeader) -> &'a [u8] {
    let cells = &bytes[HEADER_SIZE..];
    let data = &cells[2 * header.index_length as usize..];
    &data[..header.value_width.bytes() * header.data_length as usize]
}

/// Returns the number of the null value: that of the cell at the offset of the data null block, or
/// of the high value if there is no such block.
#[inline]
pub(crate) fn null_number<T: TrieValue>(header: &BinaryHeader, values: ZeroSlice<'_, T>) -> u32 {
    let place = if header.data_null_offset < header.data_length {
        header.data_null_offset
    } else {
        header.data_length.saturating_sub(2)
    };
    let Some(value) = values.get(place as usize) else {
        return 0;
    };
    value.to_u32()
}

/// Returns the header of a trie with these values.
#[inline]
fn trie_header<T: TrieValue>(
    header: &BinaryHeader,
    values: ZeroSlice<'_, T>,
) -> CodePointTrieHeader {
    let high_start = u32::from(header.shifted_high_start) * 0x200;
    CodePointTrieHeader {
        high_start,
        shifted12_high_start: high_start.div_ceil(0x1000) as u16,
        index3_null_offset: header.index3_null_offset,
        data_null_offset: header.data_null_offset,
        null_value: null_number(header, values),
        trie_type: header.trie_type,
    }
}

/// Reads the trie at the start of the bytes. Returns it and the number of bytes that it takes.
///
/// The trie borrows its index and its data. Bytes after it are not read. The bytes may be at any
/// address.
///
/// The form is the one that `ucptrie_toBinary` writes on a little-endian machine, for 8-bit, 16-bit
/// and 32-bit values and both trie types. ICU: `ucptrie_openFromBinary` with `UCPTRIE_TYPE_ANY` and
/// the width of `T`.
///
/// ```
/// use bekstaudi::codepointtrie::binary::{from_binary, to_binary};
/// use bekstaudi::codepointtrie::planes::get_planes_trie;
///
/// let mut bytes = to_binary(&get_planes_trie())?;
/// bytes.extend(b"next");
/// let (trie, len) = from_binary::<u8>(&bytes)?;
/// assert_eq!(trie.get32(0x1F600), 1);
/// assert_eq!(&bytes[len..], b"next");
/// # Ok::<(), Box<dyn std::error::Error>>(())
/// ```
///
/// # Errors
/// Returns the first of these that applies:
///
/// - `Short`, `Signature` or `Swapped` if the bytes do not start with the header of a little-endian
///   trie.
/// - `UnknownType`, `UnknownWidth` or `Reserved` if an option of the header has an unknown value.
/// - `OtherWidth` if the values have another width than `T`.
/// - `CutOff` if the index or the data are cut off.
/// - `Cell` with the index of the first data cell that is not a value of `T`.
/// - `Trie` if `CodePointTrie::try_new` rejects the parts.
#[inline]
pub fn from_binary<'a, T: TrieValue>(
    bytes: &'a [u8],
) -> Result<(CodePointTrie<'a, T>, usize), BinaryError> {
    let (header, len) = stored_header(bytes, T::WIDTH)?;
    let index = index_of(bytes, &header);
    let data = match ZeroVec::<T>::parse_bytes(data_bytes(bytes, &header)) {
        Ok(data) => data,
        Err(UleError::Cell(i)) => return Err(BinaryError::Cell(i)),
        Err(UleError::Length) => unreachable!(),
    };
    let trie = CodePointTrie::try_new(trie_header(&header, data.as_slice()), index, data)?;
    Ok((trie, len))
}

/// A trie of the width in its header. Its values are unsigned numbers.
#[derive(Debug, PartialEq, Eq, Hash)]
pub enum AnyWidthTrie<'a> {
    /// 8-bit values (`UCPTRIE_VALUE_BITS_8`).
    Bits8(CodePointTrie<'a, u8>),
    /// 16-bit values (`UCPTRIE_VALUE_BITS_16`).
    Bits16(CodePointTrie<'a, u16>),
    /// 32-bit values (`UCPTRIE_VALUE_BITS_32`).
    Bits32(CodePointTrie<'a, u32>),
}

/// Reads the trie at the start of the bytes, of any width. Returns it and the number of bytes that
/// it takes.
///
/// This is [`from_binary`] with the width in the header.
///
/// ```
/// use bekstaudi::codepointtrie::binary::{AnyWidthTrie, from_binary_any, to_binary};
/// use bekstaudi::codepointtrie::planes::get_planes_trie;
///
/// let bytes = to_binary(&get_planes_trie())?;
/// let (trie, len) = from_binary_any(&bytes)?;
/// assert!(matches!(trie, AnyWidthTrie::Bits8(trie) if trie.get32(0x1F600) == 1));
/// assert_eq!(len, bytes.len());
/// # Ok::<(), Box<dyn std::error::Error>>(())
/// ```
///
/// # Errors
/// Returns the errors of [`from_binary`], in the same order, but never `OtherWidth` or `Cell`:
/// there is a type for each width, and any bytes are a value of it.
pub fn from_binary_any(bytes: &[u8]) -> Result<(AnyWidthTrie<'_>, usize), BinaryError> {
    match header_of(bytes)?.value_width {
        ValueWidth::Bits8 => {
            let (trie, len) = from_binary(bytes)?;
            Ok((AnyWidthTrie::Bits8(trie), len))
        }
        ValueWidth::Bits16 => {
            let (trie, len) = from_binary(bytes)?;
            Ok((AnyWidthTrie::Bits16(trie), len))
        }
        ValueWidth::Bits32 => {
            let (trie, len) = from_binary(bytes)?;
            Ok((AnyWidthTrie::Bits32(trie), len))
        }
    }
}
