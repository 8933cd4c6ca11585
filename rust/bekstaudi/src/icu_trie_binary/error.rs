//! Why bytes are not a trie in the binary form, and why a trie cannot be written in it.

use crate::icu_trie::error::CodePointTrieError;
use crate::icu_zerovec::MemoryError;
use crate::support::AllocError;
use crate::support::prelude::*;

/// Why bytes are not a trie in the binary form. If several variants apply, the first one is
/// returned.
#[derive(Clone, Copy, Debug, PartialEq, Eq, Hash)]
#[non_exhaustive]
pub enum BinaryError {
    /// There are fewer than the 16 bytes of a header.
    Short,
    /// The first four bytes are not the signature of a trie, in either byte order.
    Signature,
    /// The signature is in the other byte order, as a big-endian machine writes it.
    Swapped,
    /// The type is neither 0, fast, nor 1, small.
    UnknownType,
    /// The value width is not 0, 1 or 2, for 16, 32 and 8 bits.
    UnknownWidth,
    /// One of the three reserved bits of the options is not 0.
    Reserved,
    /// The values have another width than those of the requested type.
    OtherWidth,
    /// There are fewer bytes than the index and the data take.
    CutOff,
    /// The data cell at this index, counted from 0, is the first that is not a value.
    Cell(usize),
    /// The parts do not form a trie.
    Trie(CodePointTrieError),
}

impl From<CodePointTrieError> for BinaryError {
    #[inline]
    fn from(error: CodePointTrieError) -> BinaryError {
        BinaryError::Trie(error)
    }
}

/// Why a trie cannot be written. If several variants apply, the first one is returned.
#[derive(Clone, Copy, Debug, PartialEq, Eq, Hash)]
#[non_exhaustive]
pub enum WriteError {
    /// The number of bytes of a value is not 1, 2 or 4.
    UnknownWidth,
    /// The written index would have more than 65,535 cells.
    LongIndex,
    /// The data have 1,048,576 cells or more.
    LongData,
    /// The offset of the data null block is 1,048,576 or more.
    NullOffset,
    /// The high start is not a multiple of 0x200, or is 0x2000000 or more.
    HighStart,
    /// The null value is not that of the cell at the offset of the data null block.
    NullValue,
    /// The slice has fewer bytes than the trie takes.
    Short,
    /// An allocation failed.
    Memory,
}

impl From<MemoryError> for WriteError {
    #[inline]
    fn from(_error: MemoryError) -> WriteError {
        WriteError::Memory
    }
}

impl From<AllocError> for WriteError {
    #[inline]
    fn from(_error: AllocError) -> WriteError {
        WriteError::Memory
    }
}

/// Why bytes from a machine with the other byte order cannot be read.
#[derive(Clone, Copy, Debug, PartialEq, Eq, Hash)]
#[non_exhaustive]
pub enum SwappedError {
    /// Converted to this machine's order, the bytes are not a trie.
    Binary(BinaryError),
    /// An allocation failed.
    Memory,
}

impl From<BinaryError> for SwappedError {
    #[inline]
    fn from(error: BinaryError) -> SwappedError {
        SwappedError::Binary(error)
    }
}

impl From<MemoryError> for SwappedError {
    #[inline]
    fn from(_error: MemoryError) -> SwappedError {
        SwappedError::Memory
    }
}

impl From<AllocError> for SwappedError {
    #[inline]
    fn from(_error: AllocError) -> SwappedError {
        SwappedError::Memory
    }
}

impl core::fmt::Display for BinaryError {
    fn fmt(&self, f: &mut core::fmt::Formatter<'_>) -> core::fmt::Result {
        match self {
            BinaryError::Short => f.write_str("there are fewer bytes than a header has"),
            BinaryError::Signature => f.write_str("there is no signature of a trie"),
            BinaryError::Swapped => {
                f.write_str("the trie is of a machine with the other byte order")
            }
            BinaryError::UnknownType => f.write_str("the type of the trie is unknown"),
            BinaryError::UnknownWidth => f.write_str("the width of the values is unknown"),
            BinaryError::Reserved => f.write_str("a reserved bit is not 0"),
            BinaryError::OtherWidth => f.write_str("the values have another width"),
            BinaryError::CutOff => f.write_str("the index or the data are cut off"),
            BinaryError::Cell(field) => write!(f, "cell {field} is no value"),
            BinaryError::Trie(field) => write!(f, "{field}"),
        }
    }
}

impl core::error::Error for BinaryError {}

impl core::fmt::Display for WriteError {
    #[inline]
    fn fmt(&self, f: &mut core::fmt::Formatter<'_>) -> core::fmt::Result {
        match self {
            WriteError::UnknownWidth => f.write_str("the form has no values of this width"),
            WriteError::LongIndex => f.write_str("the index is too long"),
            WriteError::LongData => f.write_str("the data are too long"),
            WriteError::NullOffset => f.write_str("the offset of the data null block is too large"),
            WriteError::HighStart => f.write_str("the form has no such high start"),
            WriteError::NullValue => {
                f.write_str("the null value is not that of the data null block")
            }
            WriteError::Short => f.write_str("the trie takes more bytes"),
            WriteError::Memory => f.write_str("no memory"),
        }
    }
}

impl core::error::Error for WriteError {}

impl core::fmt::Display for SwappedError {
    #[inline]
    fn fmt(&self, f: &mut core::fmt::Formatter<'_>) -> core::fmt::Result {
        match self {
            SwappedError::Binary(field) => write!(f, "{field}"),
            SwappedError::Memory => f.write_str("no memory"),
        }
    }
}

impl core::error::Error for SwappedError {}
