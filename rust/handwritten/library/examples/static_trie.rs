//! A trie of an enum in a `static`, which the compiler checks: the digits of ASCII and the letters.
//! For tables that the program `ucptrie` writes, `bekstaudi::trie_of!` replaces all but the enum.

use bekstaudi::codepointtrie::{CodePointTrie, CodePointTrieHeader, TrieType};
use bekstaudi::{trie_values, zeroslice};

trie_values! {
    /// A kind of character.
    pub enum Kind: u8 {
        Other = 0,
        Digit = 1,
        Letter = 2,
    }
}

/// Blocks of 64 values: of the code points from 0, of those from 0x40, and of all others. The last
/// two cells are the value from `high_start` on and the error value.
const CELLS: [u8; 192] = {
    let mut cells = [0; 192];
    let mut c = 0;
    while c < 128 {
        cells[c] = match c as u8 {
            b'0'..=b'9' => 1,
            b'A'..=b'Z' | b'a'..=b'z' => 2,
            _ => 0,
        };
        c += 1;
    }
    cells
};

/// The offset of the block of each 64 code points below 0x1000.
const INDEX: [u16; 64] = {
    let mut index = [128; 64];
    index[0] = 0;
    index[1] = 64;
    index
};

static KINDS: CodePointTrie<'static, Kind> = CodePointTrie::from_static(
    CodePointTrieHeader {
        high_start: 0x1000,
        shifted12_high_start: 1,
        index3_null_offset: 0x7FFF,
        data_null_offset: 128,
        null_value: 0,
        trie_type: TrieType::Small,
    },
    zeroslice!(u16; INDEX),
    zeroslice!(Kind as u8; CELLS),
);

fn main() {
    for c in "Zig 26".chars() {
        println!("{c:?} is {:?}", KINDS.get(c));
    }
    assert_eq!(KINDS.get('7'), Kind::Digit);
    assert_eq!(KINDS.get('\u{10FFFF}'), Kind::Other);
}
