//! The trie of the planes: the value of the code point `c` is the number of its plane, `c >> 16`.

use crate::support::prelude::*;
mod table;

use crate::icu_trie::cptrie::CodePointTrie;
use crate::icu_trie::header::{CodePointTrieHeader, TrieType};
use crate::icu_zerovec::ZeroVec;
use table::{DATA, INDEX};

/// Returns the index, read in place.
#[inline]
fn index_cells() -> ZeroVec<'static, u16> {
    match ZeroVec::parse_bytes(&INDEX) {
        Ok(index) => index,
        Err(_) => unreachable!(),
    }
}

/// Returns the data, read in place.
#[inline]
fn data_cells() -> ZeroVec<'static, u8> {
    match ZeroVec::parse_bytes(&DATA) {
        Ok(data) => data,
        Err(_) => unreachable!(),
    }
}

/// Returns the trie that maps each code point to the number of its plane, 0 to 16, and numbers
/// above 0x10FFFF to 0.
///
/// The trie borrows its cells from the program. Creating it allocates nothing.
///
/// ```
/// use bekstaudi::codepointtrie::planes::get_planes_trie;
///
/// let planes = get_planes_trie();
/// assert_eq!(planes.get32(0x1F600), 1);
/// assert_eq!(planes.get32(0x10FFFF), 16);
/// ```
#[must_use]
pub fn get_planes_trie() -> CodePointTrie<'static, u8> {
    let header = CodePointTrieHeader {
        high_start: 0x10_0000,
        shifted12_high_start: 0x100,
        index3_null_offset: 2,
        data_null_offset: 0,
        null_value: 0,
        trie_type: TrieType::Small,
    };
    match CodePointTrie::try_new(header, index_cells(), data_cells()) {
        Ok(trie) => trie,
        Err(_) => unreachable!(),
    }
}
