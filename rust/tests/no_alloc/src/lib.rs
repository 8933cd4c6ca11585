//! Look-ups in static data. Without an allocator this links only if nothing needs one.
#![cfg_attr(not(test), no_std)]

use bekstaudi::char16trie::Char16Trie;
use bekstaudi::codepointinvlist::CodePointInversionList;
use bekstaudi::codepointtrie::{
    CodePointTrie, CodePointTrieHeader, FastCodePointTrie, TrieType, text,
};
use bekstaudi::zerovec::{PotentialCodePoint, ZeroSlice, ZeroVec};
use bekstaudi::{trie_values, zeroslice};

#[cfg(not(test))]
#[panic_handler]
fn panicked(_: &core::panic::PanicInfo) -> ! {
    loop {}
}

trie_values! {
    /// A kind of character.
    pub enum Kind: u8 {
        Other = 0,
        Error = 9,
    }
}

const CELLS: [u8; 64] = {
    let mut cells = [0; 64];
    cells[63] = 9;
    cells
};
static KINDS: CodePointTrie<'static, Kind> = CodePointTrie::from_static(
    CodePointTrieHeader {
        high_start: 0x1000,
        shifted12_high_start: 1,
        index3_null_offset: 0x7FFF,
        data_null_offset: 0xF_FFFF,
        null_value: 0,
        trie_type: TrieType::Small,
    },
    zeroslice!(u16; [0; 64]),
    zeroslice!(Kind as u8; CELLS),
);
static SET: CodePointInversionList<'static> =
    CodePointInversionList::from_static(zeroslice!(PotentialCodePoint as u32; [0x41, 0x5B]));
static WORDS: Char16Trie<'static> =
    Char16Trie::from_static(zeroslice!(u16; [0x31, 0x61, 0x62, 0x8003]));

// rustc rejects a constant that takes as long to evaluate as this one, unless the macro allows the lint
// `long_running_const_eval`.
static LARGE: ZeroSlice<'static, u8> = zeroslice!(u8; [7; 500_000]);

/// Returns true if the large table has its last cell, and none after it.
#[unsafe(no_mangle)]
pub extern "C" fn is_whole() -> bool {
    LARGE.get(499_999) == Some(7) && LARGE.get(500_000).is_none()
}

#[unsafe(no_mangle)]
pub extern "C" fn kind_of(c: u32) -> u8 {
    KINDS.get32(c) as u8 + u8::from(SET.contains32(c))
}

#[unsafe(no_mangle)]
pub extern "C" fn counts() -> usize {
    let ranges = KINDS.iter_ranges().count() + SET.iter_ranges().count();
    let values = text::values_of_utf8(&KINDS, b"a\xFF").count();
    ranges + values + WORDS.longest_match_str("ab").map_or(0, |it| it.0)
}

/// Tables that a user's struct borrows, and copies with it.
#[derive(Clone)]
pub struct Tables<'a> {
    kinds: CodePointTrie<'a, Kind>,
    numbers: Option<FastCodePointTrie<'a, u16>>,
    set: CodePointInversionList<'a>,
    words: Char16Trie<'a>,
    cells: ZeroVec<'a, u16>,
}

/// Returns true if copies of borrowed tables have what the tables have, and read the same bytes.
#[unsafe(no_mangle)]
pub extern "C" fn copies() -> bool {
    let ends = ZeroVec::parse_bytes(&[0x41, 0, 0, 0x5B, 0, 0]);
    let Ok(Ok(set)) = ends.map(CodePointInversionList::try_from_inversion_list) else {
        return false;
    };
    let tables = Tables {
        kinds: KINDS.clone(),
        numbers: None,
        set,
        words: WORDS.clone(),
        cells: WORDS.data.clone(),
    };
    let copy = tables.clone();
    copy.kinds == KINDS
        && copy.numbers.is_none()
        && copy.set == SET
        && copy.words == WORDS
        && copy.cells.as_bytes().as_ptr() == WORDS.data.as_bytes().as_ptr()
}

/// Returns true if boundaries that are no inversion list are rejected.
#[unsafe(no_mangle)]
pub extern "C" fn rejects() -> bool {
    let list =
        ZeroVec::parse_bytes(&[0x41, 0, 0]).map(CodePointInversionList::try_from_inversion_list);
    matches!(list, Ok(Err(error)) if error.0.is_empty())
}

#[cfg(test)]
#[test]
fn tables_are_copied_and_rejected() {
    assert!(copies() && rejects() && is_whole());
}
