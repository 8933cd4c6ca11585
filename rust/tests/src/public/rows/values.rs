//! Values, ranges and typed tries.

use crate::binary::{ZEROS, small_header, trie_of};
use crate::maps::{both, expect_numbers, ranges_of};
use bekstaudi::codepointtrie::{
    CodePointTrie, CodePointTrieHeader, ConvertError, FastCodePointTrie, MapError, NotAValue,
    SmallCodePointTrie, TrieValue, Typed, TypedCodePointTrie, Write,
};
use bekstaudi::zerovec::ule::AsULE;

// Values of each type, and tries of mapped values.

/// Expects the value at 0x20000 and its number, and the number above the code points, in the tries
/// of both types. `values` are the default and the error value, and `numbers` those of the value and
/// of the error value.
fn expect_signed<T: TrieValue>(values: (T, T), value: T, numbers: (u32, u32)) {
    for trie in both(values, &[Write::One(0x20000, value)]) {
        assert!(trie.get32(0x20000) == value);
        let found = (trie.get32_u32(0x20000), trie.get32_u32(0x110000));
        assert_eq!(found, numbers);
    }
}

/// A negative value keeps its sign, and its number is its 32-bit two's complement.
#[test]
fn negative_value() {
    expect_signed((0i8, 9), -1, (0xFFFFFFFF, 9));
    expect_signed((0i16, 9), -300, (0xFFFFFED4, 9));
    expect_signed((0i32, -9), i32::MIN, (0x80000000, 0xFFFFFFF7));
}

/// Values and their numbers, the least and greatest numbers, and numbers that no value has: a
/// surrogate, and numbers out of range.
#[test]
fn numbers_of_values() {
    let numbers = [7u8.to_u32(), 7u16.to_u32(), 7u32.to_u32(), 'A'.to_u32()];
    assert_eq!(numbers, [7, 7, 7, 0x41]);
    let numbers = [(-1i8).to_u32(), (-1i16).to_u32(), (-1i32).to_u32()];
    assert_eq!(numbers, [u32::MAX; 3]);
    assert_eq!(u8::try_from_u32(7).ok(), Some(7));
    assert_eq!(i16::try_from_u32(7).ok(), Some(7));
    assert_eq!(char::try_from_u32(0x41).ok(), Some('A'));
    assert_eq!(i8::try_from_u32(0xFFFFFF80).ok(), Some(-128));
    assert_eq!(i8::try_from_u32(0xFFFFFF7F).ok(), None);
    assert_eq!(i8::try_from_u32(0xFF).ok(), None);
    assert_eq!(i16::try_from_u32(0xFFFF8000).ok(), Some(-32768));
    assert_eq!(i16::try_from_u32(0x8000).ok(), None);
    assert_eq!(i32::try_from_u32(0xFFFFFFFF).ok(), Some(-1));
    assert_eq!(char::try_from_u32(0x10FFFF).ok(), Some('\u{10FFFF}'));
    assert_eq!(char::try_from_u32(0xD800).ok(), None);
    assert_eq!(char::try_from_u32(0x110000).ok(), None);
}

#[test]
fn one_default_for_all() {
    for trie in both((7u8, 9), &[]) {
        let next = trie.try_alloc_map_value(|value| Ok::<u16, u8>(u16::from(value) + 1));
        let next = next.expect("not mapped");
        assert_eq!(next.error_value(), 10);
        assert_eq!(ranges_of(&next), [(0..=0x10FFFF, 8)]);
    }
}

/// The first call is for the error value, and after its error there is no further call.
#[test]
fn refused_error_value() {
    for trie in both((7u8, 9), &[]) {
        let mut calls = 0;
        let mapped = trie.try_alloc_map_value_fallible(|value| {
            calls += 1;
            if value == 9 { Err("nine") } else { Ok(value) }
        });
        assert_eq!((mapped.err(), calls), (Some(MapError::Closure("nine")), 1));
    }
}

/// The error for a data cell is passed on as well.
#[test]
fn refused_value() {
    for trie in both((1u8, 3), &[Write::Range(0x1000..=0x10FFFF, 2)]) {
        let higher = |value: u8| {
            if value == 2 {
                Err(value)
            } else {
                Ok(u16::from(value) + 0x100)
            }
        };
        assert_eq!(trie.try_alloc_map_value(higher).err(), Some(2));
    }
}

// Ranges and sets of values of built tries, and values at the borders of what was written.

/// A map: its default, the writes, its ranges, and numbers at some code points. A range has its
/// first and last code point and its number. The error value is 9.
type Row = (
    u8,
    &'static [(u32, u32, u8)],
    &'static [(u32, u32, u32)],
    &'static [(u32, u32)],
);

static MAPS: [Row; 8] = [
    // The default is written like any other value.
    (
        0,
        &[(0x41, 0x5A, 1), (0x41, 0x41, 0)],
        &[(0, 0x41, 0), (0x42, 0x5A, 1), (0x5B, 0x10FFFF, 0)],
        &[
            (0, 0),
            (0x40, 0),
            (0x41, 0),
            (0x42, 1),
            (0x5A, 1),
            (0x5B, 0),
            (0xFFFF, 0),
            (0x10000, 0),
            (0x10FFFF, 0),
            (0x110000, 9),
            (0xFFFFFFFF, 9),
        ],
    ),
    // The whole code space is written, and then most of it is reset.
    (
        0,
        &[(0, 0x10FFFF, 1), (0x80, 0x10FFFF, 0)],
        &[(0, 0x7F, 1), (0x80, 0x10FFFF, 0)],
        &[],
    ),
    // Nothing is written, or only the default.
    (7, &[], &[(0, 0x10FFFF, 7)], &[]),
    (
        7,
        &[(0x41, 0x5A, 7), (0x10FFFF, 0x10FFFF, 7)],
        &[(0, 0x10FFFF, 7)],
        &[],
    ),
    // A range is cut at the end of the code space, and one that starts after it writes nothing.
    (
        0,
        &[(0x10FFFF, 0x110005, 1), (0x110000, 0x200000, 2)],
        &[(0, 0x10FFFE, 0), (0x10FFFF, 0x10FFFF, 1)],
        &[(0, 0), (0x10FFFE, 0), (0x10FFFF, 1), (0x110000, 9)],
    ),
    // Fives below 0x10000, and zeros from there on.
    (
        0,
        &[(0, 0xFFFF, 5)],
        &[(0, 0xFFFF, 5), (0x10000, 0x10FFFF, 0)],
        &[],
    ),
    // Equal values on both sides of the fast limit, in blocks of 64 and of 16.
    (
        0,
        &[
            (0xFFC0, 0xFFCF, 1),
            (0xFFD0, 0xFFFF, 2),
            (0x10000, 0x1000F, 1),
        ],
        &[
            (0, 0xFFBF, 0),
            (0xFFC0, 0xFFCF, 1),
            (0xFFD0, 0xFFFF, 2),
            (0x10000, 0x1000F, 1),
            (0x10010, 0x10FFFF, 0),
        ],
        &[],
    ),
    // Zeros in a block of 64 that starts like the null block.
    (
        5,
        &[
            (0x400, 0x40F, 0),
            (0x10000, 0x10FFFE, 0),
            (0x10FFFF, 0x10FFFF, 3),
        ],
        &[
            (0, 0x3FF, 5),
            (0x400, 0x40F, 0),
            (0x410, 0xFFFF, 5),
            (0x10000, 0x10FFFE, 0),
            (0x10FFFF, 0x10FFFF, 3),
        ],
        &[],
    ),
];

/// Returns the write of a value to a range, or to a single code point.
fn write_of((first, last, value): &(u32, u32, u8)) -> Write<u8> {
    if first == last {
        Write::One(*first, *value)
    } else {
        Write::Range(*first..=*last, *value)
    }
}

/// Each map, with both types of tries.
#[test]
fn maps_at_their_borders() {
    for (default, written, ranges, numbers) in MAPS {
        let writes: Vec<_> = written.iter().map(write_of).collect();
        let ranges: Vec<_> = ranges
            .iter()
            .map(|(first, last, it)| (*first..=*last, *it))
            .collect();
        for trie in both((default, 9), &writes) {
            assert_eq!(ranges_of(&trie), ranges);
            expect_numbers(&trie, numbers);
        }
    }
}

/// Values, and the boundaries of their sets.
static SETS: [(u8, &[u32]); 3] = [
    (1, &[0xFFC0, 0xFFD0, 0x10000, 0x10010]),
    (0, &[0, 0xFFC0, 0x10010, 0x110000]),
    (7, &[]),
];

/// Values on both sides of the fast limit, in blocks of 64 and of 16: 0, and then 1, 2 and 1.
#[test]
fn over_the_fast_limit() {
    let writes = [
        Write::Range(0xFFC0..=0xFFCF, 1),
        Write::Range(0xFFD0..=0xFFFF, 2),
        Write::Range(0x10000..=0x1000F, 1),
    ];
    for trie in both((0u8, 9), &writes) {
        let run = trie.get_range(0xFFD0).map(|it| (it.range, it.value));
        assert_eq!(
            (run, trie.get_range(0x110000)),
            (Some((0xFFD0..=0xFFFF, 2)), None)
        );
        for (value, ends) in SETS {
            assert_eq!(
                trie.get_set_for_value(value).get_inversion_list_vec(),
                ends,
                "{value}"
            );
        }
        let ones: Vec<_> = trie.iter_ranges_for_value(1).collect();
        assert_eq!(ones, [0xFFC0..=0xFFCF, 0x10000..=0x1000F]);
        let mapped = trie.iter_ranges_mapped(|value| value != 0);
        let mapped: Vec<_> = mapped.map(|it| (it.range, it.value)).collect();
        let want = [
            (0..=0xFFBF, false),
            (0xFFC0..=0x1000F, true),
            (0x10010..=0x10FFFF, false),
        ];
        assert_eq!(mapped, want);
    }
}

// Built tries as typed tries, and with their cells read as another type.

/// Expects these values of the getters of a typed trie. `limit` is the first code point that is not
/// in its fast index, and `last` the value before it.
fn expect_typed<'trie>(trie: &impl TypedCodePointTrie<'trie, u8>, limit: u32, last: u8) {
    let found = [0xFFFF, 0x10000, 0x110000].map(|c| trie.get32(c));
    assert_eq!(found, [2, 1, 9]);
    let found = [limit - 1, limit].map(|c| trie.get32_by_fast_index(c));
    assert_eq!(found, [Some(last), None]);
}

/// The conversion to the other type fails.
#[test]
fn typed_tries() {
    let writes = [
        Write::Range(0xFFC0..=0xFFCF, 1),
        Write::Range(0xFFD0..=0xFFFF, 2),
        Write::Range(0x10000..=0x1000F, 1),
    ];
    let [fast, small] = both((0u8, 9), &writes);
    assert!(SmallCodePointTrie::try_from(&fast).is_err());
    assert!(FastCodePointTrie::try_from(&small).is_err());
    for trie in [fast, small] {
        match trie.as_typed_ref() {
            Typed::Fast(trie) => expect_typed(&trie, 0x10000, 2),
            Typed::Small(trie) => expect_typed(&trie, 0x1000, 0),
        }
    }
}

/// The side on which a mark is: 0 before, 1 after. No other byte is a side.
#[derive(Clone, Copy, Debug, PartialEq, Eq)]
struct Side(u8);

impl AsULE for Side {
    const WIDTH: usize = 1;

    fn to_unaligned(self) -> [u8; 4] {
        [self.0, 0, 0, 0]
    }

    fn from_unaligned(bytes: &[u8]) -> Option<Side> {
        (bytes[0] < 2).then_some(Side(bytes[0]))
    }
}

impl TrieValue for Side {
    type TryFromU32Error = NotAValue;

    fn to_u32(self) -> u32 {
        u32::from(self.0)
    }

    fn try_from_u32(number: u32) -> Result<Side, NotAValue> {
        let byte = u8::try_from(number).map_err(|_| NotAValue)?;
        Side::from_unaligned(&[byte]).ok_or(NotAValue)
    }
}

/// Returns the errors of converting one copy to two-byte numbers and another to sides.
fn faults_of(trie: &CodePointTrie<'_, u8>) -> [Option<ConvertError>; 2] {
    [
        trie.clone().try_into_converted_explained::<u16>().err(),
        trie.clone().try_into_converted_explained::<Side>().err(),
    ]
}

/// A trie can be read as signed bytes, but not as numbers of another width or as sides.
#[test]
fn converted_values() {
    let letters = [Write::Range(0x41..=0x5A, 1), Write::One(0x41, 0)];
    for trie in both((0u8, 9), &letters) {
        let (_, _, data) = trie.parts();
        let last = ConvertError::Cell(data.len() - 1);
        assert_eq!(faults_of(&trie), [Some(ConvertError::Width), Some(last)]);
        let signed = trie
            .try_into_converted_explained::<i8>()
            .expect("not converted");
        let found = (
            signed.get32(0x42),
            signed.get32(0x110000),
            signed.null_value(),
        );
        assert_eq!(found, (1, 9, 0));
    }
}

/// The first cell that is no side is the one after the data: 2, the high value.
#[test]
fn converted_high_value() {
    let mut cells = [1; 66];
    cells[64..].copy_from_slice(&[2, 3]);
    let trie = trie_of::<u8>(small_header(0x1000, 1), &ZEROS, &cells).expect("no trie");
    let want = [Some(ConvertError::Width), Some(ConvertError::Cell(64))];
    assert_eq!(faults_of(&trie), want);
}

/// A null value that is not a value of the other type.
#[test]
fn converted_null_value() {
    let header = CodePointTrieHeader {
        shifted12_high_start: 0,
        ..small_header(0, 7)
    };
    let trie = trie_of::<u8>(header, &ZEROS, &[0; 66]).expect("no trie");
    let want = [Some(ConvertError::Width), Some(ConvertError::ErrorOrNull)];
    assert_eq!(faults_of(&trie), want);
}
