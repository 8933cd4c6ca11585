//! Tables in constants: the tests that the compiler runs give the results of the tests at run time,
//! for every cell, every length around the limits, every offset and every null value; for unit tries,
//! for every few units around the limits of the format, and for built ones that are damaged.

use bekstaudi::char16trie::{Char16Trie, Char16TrieBuilder, is_unit_trie};
use bekstaudi::codepointinvlist::{
    CodePointInversionList, CodePointInversionListBuilder, InvalidStaticSet,
};
use bekstaudi::codepointtrie::{
    CodePointTrie, CodePointTrieBuilder, CodePointTrieError, CodePointTrieHeader, ConstValue, TrieType,
};
use bekstaudi::zerovec::ule::UleError;
use bekstaudi::zerovec::{ConstCells, PotentialCodePoint, ZeroSlice, ZeroVec};
use bekstaudi::{trie_values, unit_trie, zeroslice};
use std::fmt::Debug;

trie_values! {
    /// Values in no order, with gaps.
    pub enum Few: u8 {
        Seven = 7,
        Zero = 0,
        One = 1,
        Last = 0xFE,
    }
}

trie_values! {
    enum Wide: u16 {
        Zero = 0,
        Middle = 0x1234,
        Last = 0xFFFF,
    }
}

trie_values! {
    enum Widest: u32 {
        Zero = 0,
        Two = 2,
        Last = 0xFFFF_FFFF,
    }
}

const HEADER: CodePointTrieHeader = CodePointTrieHeader {
    high_start: 0x1000,
    shifted12_high_start: 1,
    index3_null_offset: 0x7FFF,
    data_null_offset: 0xF_FFFF,
    null_value: 0,
    trie_type: TrieType::Small,
};
/// A block of 64, in which cell 1 is the value of U+0041, cell 62 the high value and cell 63 the
/// error value.
const CELLS: [u8; 64] = {
    let mut cells = [0; 64];
    cells[1] = 7;
    cells[62] = 1;
    cells[63] = 0xFE;
    cells
};
static FEW: CodePointTrie<'static, Few> =
    CodePointTrie::from_static(HEADER, zeroslice!(u16; [0; 64]), zeroslice!(Few as u8; CELLS));
static VOWELS: CodePointInversionList<'static> = CodePointInversionList::from_static(
    zeroslice!(PotentialCodePoint as u32; [0x61, 0x62, 0x65, 0x66, 0x10_FFFF, 0x11_0000]),
);
// The map of "ab" to 3: a linear match of two units, and a final value.
static WORDS: Char16Trie<'static> =
    Char16Trie::from_static(zeroslice!(u16; [0x31, 0x61, 0x62, 0x8003]));
// The same, which the compiler checks; and the map of no word.
static CHECKED: Char16Trie<'static> = unit_trie!([0x31, 0x61, 0x62, 0x8003]);
const NO_WORDS: Char16Trie<'static> = unit_trie!([]);
// No node after the linear match, and the units of a branch descending.
const _: () = assert!(!is_unit_trie(&[0x31, 0x61, 0x62]));
const _: () = assert!(!is_unit_trie(&[1, 0x62, 0x8001, 0x61, 0x8002]));
// What databake writes is tested too.
static BAKED: CodePointTrie<'static, Few> = CodePointTrie::from_parts_unstable_unchecked_v1(
    HEADER,
    zeroslice!(u16; [0; 64]).as_zerovec(),
    zeroslice!(Few as u8; CELLS).as_zerovec(),
    Few::Last,
    Few::Zero,
);
static EMPTY: CodePointInversionList<'static> =
    CodePointInversionList::from_parts_unchecked(ZeroVec::new(), 0);
const ALL: CodePointInversionList<'static> = CodePointInversionList::all();
const BUILDER: CodePointInversionListBuilder = CodePointInversionListBuilder::new();

// Errors that a constant can look at.
const NO_CELLS: ZeroSlice<'static, u8> = zeroslice!(u8; []);
static NO_TRIE: Result<CodePointTrie<'static, u8>, CodePointTrieError> =
    CodePointTrie::try_from_static(HEADER, zeroslice!(u16; [0; 64]), NO_CELLS);
const _: () = assert!(matches!(
    ZeroSlice::<char>::try_from_static(&[0x41, 0, 0, 0, 0xD8, 0]),
    Err(UleError::Cell(1))
));

#[test]
fn statics_return_their_values() {
    assert_eq!((FEW.get('A'), FEW.get('B')), (Few::Seven, Few::Zero));
    assert_eq!((FEW.get32(0x1000), FEW.get32(0x11_0000)), (Few::One, Few::Last));
    assert_eq!((FEW.error_value(), FEW.null_value()), (Few::Last, Few::Zero));
    assert_eq!(NO_TRIE.as_ref(), Err(&CodePointTrieError::EmptyDataVector));
    assert_eq!((&BAKED, EMPTY.size()), (&FEW, 0));
    assert!(VOWELS.contains('e') && !VOWELS.contains('f') && VOWELS.contains32(0x10_FFFF));
    assert_eq!(WORDS.longest_match_str("abc"), Some((2, 3)));
    assert_eq!((&CHECKED, CHECKED.iter2().collect()), (&WORDS, vec![("ab".to_owned(), 3)]));
    assert_eq!((NO_WORDS.count_entries(), NO_WORDS.longest_match(&[0x61])), (Some(0), None));
    assert_eq!((ALL.size(), BUILDER.build().size()), (0x11_0000, 0));
    assert_eq!(zeroslice!(i8; [-1, 127, -128]).as_bytes(), [0xFF, 0x7F, 0x80]);
    assert_eq!(zeroslice!(char; ['\u{1F600}']).as_bytes(), [0, 0xF6, 1]);
    assert_eq!(zeroslice!(i32; [-2]).as_bytes(), [0xFE, 0xFF, 0xFF, 0xFF]);
}

/// A table as `ucptrie build --default 255 --as rust` writes it, of which 255 is the null value.
mod signed {
    pub type Value = u8;
    pub const TRIE_TYPE: u8 = 1;
    pub const HIGH_START: u32 = 0x1000;
    pub const SHIFTED12_HIGH_START: u16 = 1;
    pub const INDEX3_NULL_OFFSET: u16 = 0x7FFF;
    pub const DATA_NULL_OFFSET: u32 = 0;
    pub const NULL_VALUE: u32 = 0xFF;
    pub static INDEX: [u16; 64] = [0; 64];
    pub static DATA: [Value; 64] = [0xFF; 64];
}
static SIGNED: CodePointTrie<'static, i8> = bekstaudi::trie_of!(signed as i8);
static UNSIGNED: CodePointTrie<'static, u8> = bekstaudi::trie_of!(signed);

#[test]
fn a_signed_table_may_have_a_negative_default() {
    assert_eq!((SIGNED.get('A'), SIGNED.null_value(), SIGNED.error_value()), (-1, -1, -1));
    assert_eq!((UNSIGNED.get('A'), UNSIGNED.null_value()), (255, 255));
    use bekstaudi::codepointtrie::null_number;
    for number in 0..0x2_0000 {
        let wanted = |is_value: bool, extended: u32| if is_value { extended } else { number };
        assert_eq!(null_number::<i8>(number), wanted(number < 0x100, number as i8 as u32));
        assert_eq!(null_number::<i16>(number), wanted(number < 0x1_0000, number as i16 as u32));
        assert_eq!((null_number::<u8>(number), null_number::<i32>(number)), (number, number));
    }
    assert_eq!((null_number::<i8>(u32::MAX), null_number::<u16>(u32::MAX)), (u32::MAX, u32::MAX));
}

#[test]
fn an_enum_has_the_numbers_that_it_lists() {
    assert_eq!(Few::CELLS, [(0, 1), (7, 7), (0xFE, 0xFE)]);
    assert_eq!(Wide::CELLS, [(0, 0), (0x1234, 0x1234), (0xFFFF, 0xFFFF)]);
    assert_eq!(Widest::CELLS, [(0, 0), (2, 2), (u32::MAX, u32::MAX)]);
    let mut builder = CodePointTrieBuilder::new(Wide::Zero, Wide::Last, TrieType::Fast);
    builder.set_value(0x1_F600, Wide::Middle);
    let trie = builder.build();
    let (header, index, data) = trie.parts();
    let same = CodePointTrie::try_from_static(header, index, data);
    assert_eq!(same.as_ref(), Ok(&trie));
    assert_eq!(trie.get('\u{1F600}'), Wide::Middle);
}

/// Compares both tests for these bytes.
fn compare_cells<T: ConstCells + Debug>(bytes: &[u8]) {
    let found = ZeroSlice::<T>::try_from_static(bytes);
    match ZeroVec::<T>::parse_bytes(bytes) {
        Ok(vector) => assert_eq!(found.map(|it| it.as_bytes()), Ok(vector.as_bytes())),
        Err(error) => assert_eq!(found.map(|_| ()), Err(error), "{bytes:?}"),
    }
}

/// Compares both tests for each cell of up to three bytes, or for four bytes for the cells around
/// powers of two; and for each length up to 13.
fn compare_all<T: ConstCells + Debug>() {
    for length in 0..14 {
        compare_cells::<T>(&[0; 13][..length]);
        compare_cells::<T>(&[0xFF; 13][..length]);
    }
    let cells: Box<dyn Iterator<Item = u32>> = match T::WIDTH {
        1 => Box::new(0..0x100),
        2 => Box::new(0..0x1_0000),
        3 => Box::new((0..0x12_0000).chain((0x12_0000..0x100_0000).step_by(0xFFF))),
        _ => Box::new((0..32).flat_map(|i| (0..9).map(move |j| (1u32 << i).wrapping_add(j).wrapping_sub(4)))),
    };
    for cell in cells {
        let mut bytes = [0; 8];
        bytes[T::WIDTH..][..4].copy_from_slice(&cell.to_le_bytes());
        compare_cells::<T>(&bytes[..2 * T::WIDTH]);
    }
}

/// Compares both tests for these parts.
fn compare_parts<T: ConstValue + Debug>(header: CodePointTrieHeader, index: &[u8], data: &[u8]) {
    let (index, data) = (ZeroVec::parse_bytes(index).unwrap(), ZeroVec::parse_bytes(data).unwrap());
    let found = CodePointTrie::<T>::try_from_static(header, index.as_slice(), data.as_slice());
    let expected = CodePointTrie::try_new(header, index.as_slice().as_zerovec(), data.clone());
    assert_eq!(found, expected);
    if let Ok(trie) = found {
        for c in [0, 0x41, 0xFFF, 0x1000, 0xFFFF, 0x1_0000, 0x10_FFFF, u32::MAX] {
            assert_eq!(trie.get32(c), trie.parts().2.get(0).unwrap());
        }
    }
}

/// Compares both tests for all lengths around the limits, offsets and null values. All data are 0.
fn compare_tries<T: ConstValue + Debug>(trie_type: TrieType) {
    let header = CodePointTrieHeader { trie_type, ..HEADER };
    let blocks = trie_type.fast_index_len();
    let index = vec![0; 2 * blocks + 6];
    let data = vec![0; 130 * T::WIDTH];
    for length in (0..6).chain(blocks - 3..blocks + 4) {
        for cells in (0..3).chain(62..67) {
            compare_parts::<T>(header, &index[..2 * length], &data[..cells * T::WIDTH]);
        }
    }
    for offset in [0u16, 1, 63, 64, 65, 66, 67, 255, 256, 0xFFFF] {
        // Every cell of the fast index, and the three after it.
        for place in 0..blocks + 3 {
            let mut index = index.clone();
            index[2 * place..][..2].copy_from_slice(&offset.to_le_bytes());
            compare_parts::<T>(header, &index, &data);
        }
    }
    let powers = (0..32).flat_map(|i| (0..9).map(move |j| (1u32 << i).wrapping_add(j).wrapping_sub(4)));
    for null_value in (0..0x300).chain(powers).chain(0xD700..0xE100).chain([0x1234, 0x10_FFFF]) {
        let header = CodePointTrieHeader { null_value, ..header };
        compare_parts::<T>(header, &index[..2 * blocks], &data);
        compare_parts::<T>(header, &index[..2 * blocks - 2], &data[..63 * T::WIDTH]);
        compare_parts::<T>(header, &[], &[]);
    }
}

fn compare<T: ConstValue + Debug>() {
    compare_all::<T>();
    compare_tries::<T>(TrieType::Small);
    compare_tries::<T>(TrieType::Fast);
}

#[test]
fn both_tests_of_tries_agree() {
    compare::<u8>();
    compare::<u16>();
    compare::<u32>();
    compare::<i8>();
    compare::<i16>();
    compare::<i32>();
    compare::<char>();
    compare::<Few>();
    compare::<Wide>();
    compare::<Widest>();
}

/// Compares both tests for these boundaries.
fn compare_set(ends: &[u32]) {
    let bytes: Vec<u8> = ends.iter().flat_map(|it| it.to_le_bytes().into_iter().take(3)).collect();
    let slice = ZeroSlice::<PotentialCodePoint>::try_from_static(&bytes).unwrap();
    let found = CodePointInversionList::try_from_static(slice);
    match CodePointInversionList::try_from_inversion_list(slice.as_zerovec()) {
        Ok(set) => assert_eq!(found, Ok(set)),
        Err(_) => assert_eq!(found, Err(InvalidStaticSet)),
    }
}

#[test]
fn both_tests_of_sets_agree() {
    compare_all::<PotentialCodePoint>();
    let numbers = [0, 1, 2, 0x41, 0xD800, 0x10_FFFF, 0x11_0000, 0x11_0001, 0xFF_FFFF];
    compare_set(&[]);
    for a in numbers {
        compare_set(&[a]);
        for b in numbers {
            compare_set(&[a, b]);
            for c in numbers {
                compare_set(&[a, b, c]);
                for d in numbers {
                    compare_set(&[a, b, c, d]);
                }
            }
        }
    }
}

#[test]
fn parts_of_sets_are_tested() {
    static LETTERS: CodePointInversionList<'static> = CodePointInversionList::from_parts_unchecked(
        zeroslice!(PotentialCodePoint as u32; [0x41, 0x5B]).as_zerovec(),
        26,
    );
    assert_eq!(LETTERS.iter_ranges().collect::<Vec<_>>(), [0x41..=0x5A]);
    let odd = ZeroVec::parse_bytes(&[0x41, 0, 0]).expect("no boundary");
    let made = std::panic::catch_unwind(|| CodePointInversionList::from_parts_unchecked(odd, 0));
    assert!(made.is_err());
}

#[test]
#[should_panic(expected = "the boundaries are not an inversion list")]
fn a_baked_set_is_tested() {
    let _ = CodePointInversionList::from_parts_unchecked([PotentialCodePoint::try_from(1).unwrap()].into_iter().collect(), 1);
}

#[test]
#[should_panic(expected = "the data are empty")]
fn a_baked_trie_is_tested() {
    let _ = CodePointTrie::from_parts_unstable_unchecked_v1(HEADER, ZeroVec::new(), ZeroVec::new(), 0u8, 0);
}

trie_values! {
    /// Names that differ only loosely, or that the macro uses.
    #[allow(non_camel_case_types)]
    enum Alike: u8 {
        GreekExt = 4,
        Greek_Ext = 2,
        Result = 3,
        Some = 1,
        ALL = 0,
    }
}

/// Each name with its value, as a model.
const NAMES: [(&str, Alike); 5] = [
    ("GreekExt", Alike::GreekExt),
    ("Greek_Ext", Alike::Greek_Ext),
    ("Result", Alike::Result),
    ("Some", Alike::Some),
    ("ALL", Alike::ALL),
];

#[test]
fn values_have_names() {
    const FIRST: &str = Few::Seven.name();
    assert_eq!((FIRST, Few::ALL), ("Seven", &[Few::Seven, Few::Zero, Few::One, Few::Last][..]));
    for (name, value) in NAMES {
        assert_eq!((value.name(), Alike::from_name(name)), (name, Some(value)));
        assert_eq!(format!("{value:?}"), name);
    }
    // Of two names that match loosely the first one is taken.
    assert_eq!(Alike::from_name("greek ext"), Some(Alike::GreekExt));
    assert_eq!(Alike::from_name("-RE sult_"), Some(Alike::Result));
    for name in ["", "Greek", "GreekExtended", "Greek.Ext", "Résult", "Sıome"] {
        assert_eq!(Alike::from_name(name), None);
    }
    assert!(Wide::ALL.iter().all(|it| Wide::from_name(&it.name().to_uppercase()) == Some(*it)));
    assert_eq!(Widest::ALL.len(), 3);
}

/// Compares both tests for these units. Returns whether they are a trie.
fn compare_units<const N: usize>(units: &[u16; N]) -> bool {
    let trie = Char16Trie::new(ZeroVec::alloc_from_slice(units).unwrap());
    assert_eq!(is_unit_trie(units), trie.is_trie(), "{units:X?}");
    trie.is_trie()
}

/// Units around the limits of the format: ends of matches, leads of values, jumps and deltas.
const LIMITS: [u16; 24] = [
    0, 1, 2, 4, 5, 6, 0x2F, 0x30, 0x31, 0x3F, 0x40, 0x41, 0x3FFF, 0x4000, 0x4040, 0x4041, 0x7FBF, 0x7FC0,
    0x7FC1, 0x7FFF, 0x8000, 0xC000, 0xFC00, 0xFFFF,
];

#[test]
fn both_tests_of_few_units_agree() {
    let mut tries = u32::from(compare_units(&[]));
    for a in 0..=0xFFFF {
        tries += u32::from(compare_units(&[a]));
    }
    for a in LIMITS {
        for b in LIMITS {
            tries += u32::from(compare_units(&[a, b])) + u32::from(compare_units(&[a, b, 0x8000]));
            for c in LIMITS {
                for d in LIMITS {
                    let found = [compare_units(&[a, b, c, d]), compare_units(&[a, b, c, d, 0x8000, 0x8000])];
                    tries += found.iter().map(|&it| u32::from(it)).sum::<u32>();
                }
            }
        }
    }
    assert!(tries > 0x4000);
}

/// Compares both tests for the first units, as many as a number in the list.
macro_rules! compare_prefixes {
    ($units:expr; $($length:literal)*) => {
        [$($units.first_chunk::<$length>().is_some_and(compare_units)),*]
    };
}

/// Compares both tests for tries that have these units and no more, or fewer.
fn compare_lengths(units: &[u16]) -> usize {
    let found = compare_prefixes!(units; 2 5 11 23 41 79 128 190 240 600);
    found.iter().filter(|it| **it).count()
}

/// Returns the units of the trie of these keys, each with the value of its number times `factor`.
fn units_of(keys: impl Iterator<Item = Vec<u16>>, factor: i32) -> Vec<u16> {
    let mut builder = Char16TrieBuilder::new();
    for (number, key) in keys.enumerate() {
        builder.add(&key, (number as i32).wrapping_mul(factor)).unwrap();
    }
    builder.try_build().unwrap().data.iter().collect()
}

#[test]
fn both_tests_of_damaged_units_agree() {
    let words = ["in", "inn", "inner", "inning", "out", "outer", "a", "category", "cat", "世界", "世"];
    let mut found = 0;
    for factor in [1, 0x3000, 0x10_0000, -1] {
        for mut units in [
            units_of(words.iter().map(|it| it.encode_utf16().collect()), factor),
            units_of((0..40).map(|it| vec![it * 7, it]), factor),
            units_of((0..80).map(|it| vec![it * 801]), factor),
            units_of((0x61..0x7B).map(|it| vec![it]), factor),
        ] {
            let length = units.len();
            // Unused units after the trie are no fault.
            units.resize(600, 0x30);
            assert!(compare_lengths(&units) > 0);
            for i in 0..length {
                for unit in LIMITS.into_iter().chain([units[i] ^ 1, units[i] ^ 0x8000, units[i].wrapping_add(1)]) {
                    let kept = std::mem::replace(&mut units[i], unit);
                    found += compare_lengths(&units);
                    units[i] = kept;
                }
            }
        }
    }
    assert!(found > 1000);
}

#[test]
fn deltas_have_one_to_three_units() {
    // The upper half of a branch of a to f, each with a value, and the lower half.
    let rows = [0x64, 0x8001, 0x65, 0x8002, 0x66, 0x8003, 0x61, 0x8004, 0x62, 0x8005, 0x63, 0x8006];
    let deltas: [&[u16]; 3] = [&[6], &[0xFC00, 6], &[0xFFFF, 0, 6]];
    for delta in deltas {
        let mut units = [&[5, 0x64], delta, &rows].concat();
        units.resize(24, 0x30);
        let words = Char16Trie::new(ZeroVec::alloc_from_slice(&units).unwrap());
        let found: String = words.iter2().map(|(word, value)| format!("{word}{value}")).collect();
        assert_eq!(found, "a4b5c6d1e2f3");
        let mut units: [u16; 24] = units.try_into().unwrap();
        assert!(compare_units(&units));
        for i in 0..units.len() {
            for unit in LIMITS.into_iter().chain([7, 0x62, 0x64, 0x66]) {
                let kept = std::mem::replace(&mut units[i], unit);
                compare_units(&units);
                units[i] = kept;
            }
        }
    }
}
