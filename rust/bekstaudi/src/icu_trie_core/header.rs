//! The header of a trie.

use crate::icu_trie_core::error::CodePointTrieError;
use crate::icu_trie_core::impl_const::{
    BMP_INDEX_LENGTH, FAST_TYPE_FAST_INDEXING_MAX, SMALL_INDEX_LENGTH, SMALL_LIMIT,
};
use crate::support::prelude::*;

/// The part of the code space that the fast index covers.
#[derive(Clone, Copy, Debug, PartialEq, Eq, Hash)]
pub enum TrieType {
    /// The whole BMP: a look-up below 0x10000 takes two reads. The tables are larger.
    Fast = 0,
    /// Only the code points below 0x1000, for small tables.
    Small = 1,
}

impl TrieType {
    /// Returns the fast limit, the first code point that the fast index does not cover: 0x10000 for
    /// `Fast` and 0x1000 for `Small`.
    #[inline(always)]
    #[must_use]
    pub const fn fast_limit(self) -> u32 {
        match self {
            TrieType::Fast => FAST_TYPE_FAST_INDEXING_MAX + 1,
            TrieType::Small => SMALL_LIMIT,
        }
    }

    /// Returns the number of cells in the fast index, one for each block of 64 below the fast
    /// limit: 1,024 for `Fast` and 64 for `Small`.
    #[inline(always)]
    #[must_use]
    pub const fn fast_index_len(self) -> usize {
        match self {
            TrieType::Fast => BMP_INDEX_LENGTH as usize,
            TrieType::Small => SMALL_INDEX_LENGTH as usize,
        }
    }
}

/// Converts the number of a trie type in a file: 0 is `Fast` and 1 is `Small`. Any other number is
/// a `FromDeserialized` error.
impl TryFrom<u8> for TrieType {
    type Error = CodePointTrieError;

    #[inline]
    fn try_from(number: u8) -> Result<TrieType, CodePointTrieError> {
        match number {
            0 => Ok(TrieType::Fast),
            1 => Ok(TrieType::Small),
            _ => Err(CodePointTrieError::FromDeserialized {
                reason: "Cannot parse value for trie_type",
            }),
        }
    }
}

/// The header of a trie: what it stores besides its index and its data (ICU: `UCPTrie`).
#[derive(Clone, Copy, Debug, PartialEq, Eq, Hash)]
pub struct CodePointTrieHeader {
    /// All code points from this one on have the high value. In a built trie it is a multiple of
    /// 512.
    pub high_start: u32,
    /// `high_start` shifted right by 12 bits, rounded up. It is stored but never read.
    pub shifted12_high_start: u16,
    /// The index-2 cell of a block of 512 code points that all have the null value, or 0x7fff if
    /// there is none.
    pub index3_null_offset: u16,
    /// The data offset of a block of code points that all have the null value, or 0xfffff if there
    /// is none.
    pub data_null_offset: u32,
    /// The number of the null value, which is usually the most common value.
    pub null_value: u32,
    /// The part of the code space that the fast index covers.
    pub trie_type: TrieType,
}
