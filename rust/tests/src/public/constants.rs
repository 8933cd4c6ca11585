//! Macros of constants mean what their caller's names mean, and bound the numbers that they pack.

use bekstaudi::char16trie::Char16Trie;
use bekstaudi::codepointinvlist::CodePointInversionList;
use bekstaudi::codepointtrie::{CodePointTrie, TrieValue};
use bekstaudi::zerovec::ule::AsULE;
use bekstaudi::zerovec::{ConstCells, PotentialCodePoint, ZeroSlice, number_bounds, table_bounds};
use bekstaudi::{trie_of, trie_values, unit_trie, zeroslice};

// Names that the macros may want for constants of their own.
const WIDTH: usize = 9;
const NUMBERS: [u16; 2] = [0x41, 0x5B];
const BYTES: [u8; 2] = [3, 4];
const SLICE: &[u16] = &[5, 6, 7];
const TRIE: [u16; 4] = [0x31, 0x61, 0x62, 0x8003];

#[test]
fn names_are_the_callers() {
    const LIST: [u16; 1] = [8];
    static WIDTHS: ZeroSlice<'static, u16> = zeroslice!(u16 as usize; [WIDTH, 100]);
    assert_eq!(WIDTHS.iter().collect::<Vec<_>>(), [9, 100]);
    assert_eq!(zeroslice!(u16; NUMBERS).iter().collect::<Vec<_>>(), NUMBERS);
    assert_eq!(zeroslice!(u8; BYTES).as_bytes(), BYTES);
    assert_eq!(zeroslice!(u16; *SLICE).iter().collect::<Vec<_>>(), SLICE);
    assert_eq!(zeroslice!(u16; LIST).first(), Some(8));
    static WORDS: Char16Trie<'static> = unit_trie!(TRIE);
    assert_eq!(WORDS.longest_match_str("ab"), Some((2, 3)));
    static LETTERS: CodePointInversionList<'static> = CodePointInversionList::from_static(
        zeroslice!(PotentialCodePoint as usize; [WIDTH, WIDTH + 26]),
    );
    assert_eq!(LETTERS.iter_ranges().collect::<Vec<_>>(), [9..=34]);
}

#[test]
fn locals_and_nested_macros_are_the_callers() {
    const I: usize = 1;
    assert_eq!(zeroslice!(u8 as usize; [I, zeroslice!(u8 as usize; [I, WIDTH]).as_bytes().len()]).as_bytes(), [1, 2]);
}

/// A module whose names are those of Rust's prelude, with other meanings.
mod shadowed {
    #![allow(dead_code, non_camel_case_types)]

    pub type Result<T> = ::core::result::Result<T, ()>;
    pub type Option = ();
    pub struct Ok;
    pub struct Err;
    pub struct Some;

    bekstaudi::trie_values! {
        pub enum NumericType: u8 {
            None = 0,
            Digit = 1,
            #[doc(hidden)]
            #[deprecated]
            Decimal = 3,
        }
    }
    pub use NumericType::*;

    pub mod core {}
}

#[test]
fn an_enum_needs_no_prelude() {
    use shadowed::NumericType;
    assert_eq!(NumericType::try_from_u32(1), Ok(NumericType::Digit));
    assert_eq!((NumericType::try_from_u32(2).is_err(), shadowed::None.to_u32()), (true, 0));
    assert_eq!(NumericType::from_unaligned(&[0]), Some(NumericType::None));
    assert_eq!(NumericType::CELLS, [(0, 1), (3, 3)]);
}

trie_values! {
    enum Wide: u16 {
        Zero = 0,
        Last = 0x1234,
    }
}

trie_values! {
    #[derive(Default)]
    enum Widest: u32 {
        #[default]
        Last = 0xFFFF_FFFF,
    }
}

#[test]
fn an_enum_has_no_other_numbers() {
    let found = |numbers: &[u32]| numbers.iter().filter_map(|it| Wide::try_from_u32(*it).ok()).collect::<Vec<_>>();
    assert_eq!(found(&[0x1234, 0x34, 0x1_0000, 0x1_1234, 0x8000_0000, 0]), [Wide::Last, Wide::Zero]);
    assert_eq!((Widest::try_from_u32(u32::MAX), Widest::try_from_u32(0xFFFF).is_err()), (Ok(Widest::default()), true));
    assert_eq!((Wide::from_unaligned(&[0x34, 0x12]), Wide::from_unaligned(&[0x34, 0])), (Some(Wide::Last), None));
}

#[test]
fn bounds_are_those_of_the_type() {
    assert_eq!((number_bounds::<u8>(), number_bounds::<i8>()), ((0, 255), (-128, 127)));
    assert_eq!((number_bounds::<u16>(), number_bounds::<i16>()), ((0, 0xFFFF), (-0x8000, 0x7FFF)));
    assert_eq!(number_bounds::<PotentialCodePoint>(), (0, 0xFF_FFFF));
    assert_eq!(number_bounds::<u32>(), (0, u32::MAX.into()));
    assert_eq!(number_bounds::<i32>(), (i32::MIN.into(), i32::MAX.into()));
    assert_eq!((number_bounds::<char>(), number_bounds::<Wide>()), ((0, 0xFF_FFFF), (0, 0xFFFF)));
    assert_eq!((table_bounds::<u8>(), table_bounds::<i8>()), ((0, 255), (-128, 255)));
    static ENDS: ZeroSlice<'static, i16> = zeroslice!(i16 as i64; [-0x8000, -1, 0x7FFF]);
    assert_eq!(ENDS.iter().collect::<Vec<_>>(), [i16::MIN, -1, i16::MAX]);
}

/// A table with numbers of a signed type.
mod table {
    pub type Value = i8;
    pub const TRIE_TYPE: u8 = 1;
    pub const HIGH_START: u32 = 0x1000;
    pub const SHIFTED12_HIGH_START: u16 = 1;
    pub const INDEX3_NULL_OFFSET: u16 = 0x7FFF;
    pub const DATA_NULL_OFFSET: u32 = 0;
    pub const NULL_VALUE: u32 = 0xFF;
    pub static INDEX: [u16; 64] = [0; 64];
    pub static DATA: [Value; 64] = [-1; 64];
}

#[test]
fn a_table_may_have_signed_numbers() {
    static TRIE: CodePointTrie<'static, i8> = trie_of!(table);
    assert_eq!((TRIE.get('A'), TRIE.null_value()), (-1, -1));
}
