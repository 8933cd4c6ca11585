//! Reads tries in the binary form of a big-endian machine.

use crate::icu_trie::cptrie::CodePointTrie;
use crate::icu_trie::value::TrieValue;
use crate::icu_trie_binary::binary::from_binary;
use crate::icu_trie_binary::error::SwappedError;
use crate::icu_trie_binary::header::{HEADER_SIZE, u16_at};
use crate::support::AllocError;
use crate::support::prelude::*;

/// Appends each whole group of `width` bytes, with its bytes reversed.
#[inline]
fn append_swapped(into: &mut Vec<u8>, bytes: &[u8], width: usize) -> Result<(), AllocError> {
    for i in 0..bytes.len() / width {
        let mut group = [0; 4];
        let group = &mut group[..width];
        group.copy_from_slice(&bytes[i * width..i * width + width]);
        group.reverse();
        into.try_extend_from_slice(group)?;
    }
    Ok(())
}

/// Returns the first `len` bytes, or all if there are fewer.
#[inline]
fn front(bytes: &[u8], len: usize) -> &[u8] {
    if len < bytes.len() {
        &bytes[..len]
    } else {
        bytes
    }
}

/// Returns the bytes after the first `len`, or none if there are no more.
#[inline]
fn behind(bytes: &[u8], len: usize) -> &[u8] {
    if len < bytes.len() {
        &bytes[len..]
    } else {
        &[]
    }
}

/// Appends the header, with the bytes of each of its numbers reversed.
#[inline]
fn append_header(into: &mut Vec<u8>, bytes: &[u8]) -> Result<(), AllocError> {
    append_swapped(into, front(bytes, 4), 4)?;
    append_swapped(into, front(behind(bytes, 4), 12), 2)
}

/// Returns the number of bytes of the index and of the data, according to the header.
#[inline]
fn said_by(header: &[u8], width: usize) -> (usize, usize) {
    let cells = u16_at(header, 4) as usize / 0x1000 * 0x1_0000 + u16_at(header, 8) as usize;
    (2 * u16_at(header, 6) as usize, width * cells)
}

/// Returns the trie at the start of the bytes in the other byte order.
#[inline]
fn in_other_order(bytes: &[u8], width: usize) -> Result<Vec<u8>, AllocError> {
    if bytes.len() < HEADER_SIZE {
        return Vec::from_slice(bytes);
    }
    let mut swapped = Vec::new();
    append_header(&mut swapped, bytes)?;
    let (index, cells) = said_by(swapped.as_slice(), width);
    let rest = behind(bytes, HEADER_SIZE);
    append_swapped(&mut swapped, front(rest, index), 2)?;
    append_swapped(&mut swapped, front(behind(rest, index), cells), width)?;
    Ok(swapped)
}

/// Reads the trie at the start of bytes that a big-endian machine wrote. Returns it and the number
/// of bytes that it takes.
///
/// The bytes are copied into this machine's order, and the trie is the one that `from_binary` reads
/// from the copy.
///
/// ```
/// use bekstaudi::codepointtrie::binary::{from_binary_swapped, to_binary};
/// use bekstaudi::codepointtrie::planes::get_planes_trie;
///
/// let mut bytes = to_binary(&get_planes_trie())?;
/// // The trie in the other byte order: the signature, and 16-bit units up to the data.
/// let data = 16 + 2 * usize::from(u16::from_le_bytes([bytes[6], bytes[7]]));
/// bytes[..4].reverse();
/// bytes[4..data].chunks_mut(2).for_each(|unit| unit.reverse());
/// let (trie, len) = from_binary_swapped::<u8>(&bytes)?;
/// assert_eq!(trie.get32(0x1F600), 1);
/// assert_eq!(len, bytes.len());
/// # Ok::<(), Box<dyn std::error::Error>>(())
/// ```
///
/// # Errors
/// - `Binary` with the first error that `from_binary` returns for the bytes in this machine's
///   order. It is `Swapped` if they already were in this order.
/// - `Memory` if an allocation fails.
#[inline]
pub fn from_binary_swapped<T: TrieValue>(
    bytes: &[u8],
) -> Result<(CodePointTrie<'static, T>, usize), SwappedError> {
    let swapped = in_other_order(bytes, T::WIDTH)?;
    let (trie, len) = from_binary::<T>(swapped.as_slice())?;
    let owned = trie.try_clone()?;
    Ok((owned, len))
}
