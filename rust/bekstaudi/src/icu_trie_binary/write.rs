//! Writes tries in ICU's binary form, as `ucptrie_toBinary` does.

use crate::icu_trie::cptrie::CodePointTrie;
use crate::icu_trie::value::TrieValue;
use crate::icu_trie_binary::binary::null_number;
use crate::icu_trie_binary::error::WriteError;
use crate::icu_trie_binary::header::{BinaryHeader, HEADER_SIZE, stored_length};
use crate::icu_trie_binary::write_header::{header_bytes, width_for};
use crate::support::AllocError;
use crate::support::prelude::*;

/// Returns the bytes after an index of `cells` cells if values of `width` bytes follow it.
#[inline]
fn padding(width: usize, cells: usize) -> &'static [u8] {
    if width == 4 && cells % 2 == 1 {
        &[0xee, 0xff]
    } else {
        &[]
    }
}

/// Returns the header to be written for a trie, or why the form cannot store the trie.
fn header_for<T: TrieValue>(trie: &CodePointTrie<'_, T>) -> Result<BinaryHeader, WriteError> {
    let (header, index, values) = trie.parts();
    let value_width = width_for(T::WIDTH);
    if value_width.bytes() != T::WIDTH {
        return Err(WriteError::UnknownWidth);
    }
    let index_length = index.len() + padding(T::WIDTH, index.len()).len() / 2;
    if index_length > 0xFFFF {
        return Err(WriteError::LongIndex);
    }
    if values.len() > 0xF_FFFF {
        return Err(WriteError::LongData);
    }
    if header.data_null_offset > 0xF_FFFF {
        return Err(WriteError::NullOffset);
    }
    if !header.high_start.is_multiple_of(0x200) || header.high_start > 0x1FF_FFFF {
        return Err(WriteError::HighStart);
    }
    let written = BinaryHeader {
        trie_type: header.trie_type,
        value_width,
        index_length: index_length as u16,
        data_length: values.len() as u32,
        index3_null_offset: header.index3_null_offset,
        data_null_offset: header.data_null_offset,
        shifted_high_start: (header.high_start / 0x200) as u16,
    };
    let null_number = null_number(&written, values);
    let names_block = written.data_null_offset < written.data_length;
    if names_block && header.null_value != null_number {
        return Err(WriteError::NullValue);
    }
    Ok(written)
}

/// The parts of the binary form of a trie, which are written one after another.
struct WrittenParts<'a> {
    header: [u8; HEADER_SIZE],
    index: &'a [u8],
    padding: &'a [u8],
    values: &'a [u8],
    /// The number of bytes of all parts.
    len: usize,
}

impl<'a> WrittenParts<'a> {
    /// Writes the parts at the start of the bytes.
    #[inline]
    fn write(&self, bytes: &mut [u8]) {
        let (header, rest) = bytes.split_at_mut(HEADER_SIZE);
        header.copy_from_slice(&self.header);
        let (index, rest) = rest.split_at_mut(self.index.len());
        index.copy_from_slice(self.index);
        let (padding, rest) = rest.split_at_mut(self.padding.len());
        padding.copy_from_slice(self.padding);
        let (values, _) = rest.split_at_mut(self.values.len());
        values.copy_from_slice(self.values);
    }

    /// Appends the parts to bytes.
    #[inline]
    fn append(&self, bytes: &mut Vec<u8>) -> Result<(), AllocError> {
        bytes.try_extend_from_slice(&self.header)?;
        bytes.try_extend_from_slice(self.index)?;
        bytes.try_extend_from_slice(self.padding)?;
        bytes.try_extend_from_slice(self.values)
    }
}

/// Returns the parts of the binary form of a trie, or why the form cannot store the trie.
#[inline]
fn written_parts<'a, T: TrieValue>(
    trie: &'a CodePointTrie<'_, T>,
) -> Result<WrittenParts<'a>, WriteError> {
    let header = header_for(trie)?;
    let (_, index, values) = trie.parts();
    Ok(WrittenParts {
        header: header_bytes(&header),
        index: index.as_bytes(),
        padding: padding(T::WIDTH, index.len()),
        values: values.as_bytes(),
        len: stored_length(&header),
    })
}

/// Returns the number of bytes that [`to_binary`] and [`write_binary`] write for a trie.
///
/// These are 16 bytes for the header, two for each cell of the index, and the bytes of each value.
/// If values have four bytes, an index of an odd length is written with one more cell.
///
/// # Errors
/// Returns the first variant of [`WriteError`] that says why the form cannot store the trie.
/// `Short` and `Memory` are never returned.
#[inline]
pub fn binary_len<T: TrieValue>(trie: &CodePointTrie<'_, T>) -> Result<usize, WriteError> {
    Ok(written_parts(trie)?.len)
}

/// Returns the bytes of a trie in ICU's binary form, as `ucptrie_toBinary` writes them on a
/// little-endian machine.
///
/// `from_binary` reads these bytes as the trie's stored form. For every code point whose cells the
/// trie has, the stored form has the same value. A coherent trie has the cells of every code point,
/// and every built trie is coherent. A trie that is not coherent may lack some: there a look-up in
/// the trie returns the error value, and a look-up in its stored form may return another value.
///
/// The bytes are the header of 16 bytes, the index, and the data. If the index has an odd length
/// and values take four bytes, a cell 0xFFEE follows the index, as in ICU's builder, so that the
/// offset of the data is a multiple of four.
///
/// ```
/// use bekstaudi::codepointtrie::binary::{from_binary, to_binary};
/// use bekstaudi::codepointtrie::planes::get_planes_trie;
///
/// let trie = get_planes_trie();
/// let bytes = to_binary(&trie)?;
/// assert_eq!(from_binary(&bytes)?, (trie, bytes.len()));
/// # Ok::<(), Box<dyn std::error::Error>>(())
/// ```
///
/// # Errors
/// Returns the first of these that applies:
///
/// - `UnknownWidth`, `LongIndex`, `LongData`, `NullOffset`, `HighStart` or `NullValue` if the form
///   cannot store the trie.
/// - `Memory` if the one allocation fails.
///
/// `Short` is never returned.
#[inline]
pub fn to_binary<T: TrieValue>(trie: &CodePointTrie<'_, T>) -> Result<Vec<u8>, WriteError> {
    let parts = written_parts(trie)?;
    let mut bytes = Vec::with_room(parts.len)?;
    parts.append(&mut bytes)?;
    Ok(bytes)
}

/// Writes a trie at the start of the bytes, as [`to_binary`] does. Returns the number of bytes
/// written.
///
/// The bytes after it are unchanged. Nothing is allocated.
///
/// # Errors
/// Returns the first of these that applies, and leaves the slice unchanged:
///
/// - A variant of [`WriteError`] that says why the form cannot store the trie.
/// - `Short` if the slice has fewer bytes than [`binary_len`] returns.
///
/// `Memory` is never returned.
#[inline]
pub fn write_binary<T: TrieValue>(
    trie: &CodePointTrie<'_, T>,
    bytes: &mut [u8],
) -> Result<usize, WriteError> {
    let parts = written_parts(trie)?;
    let len = parts.len;
    if bytes.len() < len {
        return Err(WriteError::Short);
    }
    parts.write(bytes);
    Ok(len)
}
