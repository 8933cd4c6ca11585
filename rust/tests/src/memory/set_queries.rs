//! Queries of sets of code points. Expected values are those of ICU's UnicodeSet and of the Rust crate, or
//! computed by hand.

use crate::icu_invlist::codepointinvlist::{
    CodePointInversionList, RangeOf, RangePoint, deconstruct_range,
};
use crate::icu_invlist_binary::serialized::{
    SerializeError, SerializedSetError, WriteError, from_serialized, serialized_len, to_serialized,
    write_serialized,
};
use crate::memory::support::{
    all, basic, counts_of, ends_of, expect_listed, expect_same, hash_of, set_of, tell,
};
use crate::refusals::{each_refused, none_asked, say};
use crate::support::prelude::*;
use core::ops::{Range, RangeFull};

// Queries of sets.

const GREATER: [u32; 8] = [0xA, 0x14, 0x28, 0x32, 0x46, 0x50, 0x64, 0x6E];

const SMALLER: [u32; 8] = [0xF, 0x14, 0x2C, 0x31, 0x46, 0x50, 0x64, 0x6D];

/// Two sets, whether the second is a subset of the first, and a description.
static SUBSETS: [(&[u32], &[u32], bool, &str); 4] = [
    (&[0x41, 0x44], &[0x42, 0x45], false, "overlapping"),
    (&[0x41, 0x44], &[], true, "empty"),
    (&GREATER, &SMALLER, true, "the smaller in the greater"),
    (&SMALLER, &GREATER, false, "the greater in the smaller"),
];

/// Calls: `CodePointInversionList::contains_set`.
#[test]
fn subsets_quiet() {
    none_asked(|| {
        for (whole, part, want, what) in SUBSETS.iter() {
            let Some(whole) = set_of(whole) else {
                return;
            };
            let Some(part) = set_of(part) else {
                return;
            };
            say("call");
            let found = whole.contains_set(&part);
            say("done");
            expect_same(found, *want, what);
        }
    });
}

/// A set that is made twice has the same hash.
///
/// Calls: `CodePointInversionList::all`, `CodePointInversionList::bmp`,
/// `CodePointInversionList::contains_range`, `CodePointInversionList::is_empty`.
#[test]
fn all_and_basic_quiet() {
    none_asked(|| {
        say("call");
        let all = all();
        let basic = basic();
        let found = [all.contains_range(..), basic == all, basic.is_empty()];
        let hashes = [hash_of(&basic), hash_of(&CodePointInversionList::bmp())];
        say("done");
        let what = "all in all, the basic plane is all, it is empty";
        expect_same(found, [true, false, false], what);
        expect_same(hashes[0], hashes[1], "hashes");
    });
}

/// Numbers, each with its index in the set if the set contains it.
type Places = &'static [(u32, Option<usize>)];

/// Expects the set to have these ranges at these indices.
fn expect_nth(set: &CodePointInversionList<'_>, rows: &[(usize, Option<(u32, u32)>)]) {
    for (index, want) in rows {
        let found = ends_of(set.get_nth_range(*index));
        expect_same((*index, found), (*index, *want), "a range");
    }
}

/// Expects the set to contain exactly the numbers that have an index, at that index.
fn expect_positions(set: &CodePointInversionList<'_>, rows: Places) {
    for (c, want) in rows {
        let found = (*c, set.contains32(*c), set.position32(*c));
        expect_same(found, (*c, want.is_some(), *want), "a place");
    }
}

/// The ranges of the set of A to C, E and a surrogate, by index.
static NTH: [(usize, Option<(u32, u32)>); 5] = [
    (0, Some((0x41, 0x43))),
    (1, Some((0x45, 0x45))),
    (2, Some((0xD800, 0xD800))),
    (3, None),
    (usize::MAX, None),
];

/// The indices of numbers in that set.
static POSITIONS: [(u32, Option<usize>); 7] = [
    (0x40, None),
    (0x41, Some(0)),
    (0x43, Some(2)),
    (0x44, None),
    (0x45, Some(3)),
    (0xD800, Some(4)),
    (u32::MAX, None),
];

/// Calls: `CodePointInversionList::get_nth_range`, `CodePointInversionList::contains32`,
/// `CodePointInversionList::position32`, `CodePointInversionList::size`,
/// `CodePointInversionList::get_range_count`, `CodePointInversionList::contains_range`,
/// `CodePointInversionList::contains`, `CodePointInversionList::position`.
#[test]
fn ranges_and_positions_quiet() {
    none_asked(|| {
        let Some(set) = set_of(&[0x41, 0x44, 0x45, 0x46, 0xD800, 0xD801]) else {
            return;
        };
        say("call");
        expect_nth(&set, &NTH);
        expect_positions(&set, &POSITIONS);
        let counts = counts_of(&set);
        let held = [
            set.contains_range('A'..='C'),
            set.contains_range('A'..='D'),
            set.contains_range('B'..'B'),
            set.contains('C'),
        ];
        let place = set.position('E');
        say("done");
        expect_same(counts, [5, 3], "size and ranges");
        let what = "A to C, A to D, no character, C";
        expect_same(held, [true, false, false, true], what);
        expect_same(place, Some(3), "the place of E");
    });
}

// The ranges, the gaps and the characters of sets.

/// Expects the set to have exactly these ranges, given by their first and their last number.
fn expect_ranges(set: &CodePointInversionList<'_>, want: &[(u32, u32)]) {
    let mut ranges = set.iter_ranges();
    let counts = [ranges.len(), ranges.size_hint().0];
    expect_same(counts, [want.len(); 2], "ranges");
    for range in want {
        expect_same(ends_of(ranges.next()), Some(*range), "a range");
    }
    expect_same(ends_of(ranges.next()), None, "a range too many");
}

/// Expects the set to have exactly these gaps, given by their first and their last number.
fn expect_gaps(set: &CodePointInversionList<'_>, want: &[(u32, u32)]) {
    let mut gaps = set.iter_ranges_complemented();
    for gap in want {
        expect_same(ends_of(gaps.next()), Some(*gap), "a gap");
    }
    expect_same(ends_of(gaps.next()), None, "a gap too many");
}

/// The ranges or the gaps of a set, each with its first and its last number.
type Pieces = &'static [(u32, u32)];

/// Sets by their boundaries, with their ranges and their gaps.
static GAPS: [(&[u32], Pieces, Pieces); 4] = [
    (
        &[0xA, 0x14, 0x28, 0x32],
        &[(0xA, 0x13), (0x28, 0x31)],
        &[(0, 9), (0x14, 0x27), (0x32, 0x10_FFFF)],
    ),
    (
        &[0, 0xA, 0x14, 0x11_0000],
        &[(0, 9), (0x14, 0x10_FFFF)],
        &[(0xA, 0x13)],
    ),
    (&[], &[], &[(0, 0x10_FFFF)]),
    (&[0, 0x11_0000], &[(0, 0x10_FFFF)], &[]),
];

/// Calls: `CodePointInversionList::iter_ranges`, `IterRanges::len`, `IterRanges::size_hint`,
/// `IterRanges::next`, `CodePointInversionList::iter_ranges_complemented`,
/// `IterRangesComplemented::next`.
#[test]
fn ranges_and_gaps_quiet() {
    none_asked(|| {
        for (ends, ranges, gaps) in GAPS.iter() {
            let Some(set) = set_of(ends) else {
                return;
            };
            say("call");
            expect_ranges(&set, ranges);
            expect_gaps(&set, gaps);
            say("done");
        }
    });
}

/// The characters in a set, followed by the end of the iterator.
static GIVEN: [Option<char>; 5] = [Some('A'), Some('B'), Some('C'), Some('E'), None];

/// The surrogate is skipped, since it is not a character.
///
/// Calls: `CodePointInversionList::iter_chars`, `IterChars::next`.
#[test]
fn characters_quiet() {
    none_asked(|| {
        let Some(set) = set_of(&[0x41, 0x44, 0x45, 0x46, 0xD800, 0xD801]) else {
            return;
        };
        say("call");
        let mut chars = set.iter_chars();
        for want in GIVEN.iter() {
            expect_same(chars.next(), *want, "a character");
        }
        say("done");
    });
}

// The bounds of each type of range.

/// The bounds of ranges of numbers.
static OF_NUMBERS: [(u32, u32); 10] = [
    (5, 5),
    (3, 7),
    (9, 3),
    (3, 8),
    (0, u32::MAX),
    (5, 0x11_0000),
    (0, 7),
    (0, 8),
    (0, u32::MAX),
    (0, 0x11_0000),
];

/// Ranges of numbers, one of which had a single number that was already taken.
///
/// Calls: `codepointinvlist::deconstruct_range`, `RangePoint::number`.
#[test]
fn ranges_of_numbers_quiet() {
    none_asked(|| {
        let mut spent = 5..=5_u32;
        expect_same(spent.next(), Some(5), "its one number");
        say("call");
        let point = 7_u32.number();
        let found = [
            deconstruct_range(spent),
            deconstruct_range(3..7),
            deconstruct_range(Range { start: 9, end: 3 }),
            deconstruct_range(3..=7),
            deconstruct_range(0..=u32::MAX),
            deconstruct_range(5_u32..),
            deconstruct_range(..7),
            deconstruct_range(..=7),
            deconstruct_range(..=u32::MAX),
            deconstruct_range::<u32, RangeFull>(..),
        ];
        say("done");
        expect_same(found, OF_NUMBERS, "ends of ranges of numbers");
        expect_same(point, 7, "a number");
    });
}

/// The bounds of ranges of characters.
static OF_CHARACTERS: [(u32, u32); 7] = [
    (0x41, 0x5A),
    (0x41, 0x5B),
    (0x41, 0x11_0000),
    (0, 0x5A),
    (0, 0x5B),
    (0, 0x11_0000),
    (0, 0x11_0000),
];

/// Calls: `codepointinvlist::deconstruct_range`, `RangeOf::deconstruct`, `RangePoint::number`.
#[test]
fn ranges_of_characters_quiet() {
    none_asked(|| {
        say("call");
        let point = 'A'.number();
        let found = [
            deconstruct_range('A'..'Z'),
            ('A'..='Z').deconstruct(),
            deconstruct_range('A'..),
            deconstruct_range(..'Z'),
            deconstruct_range(..='Z'),
            deconstruct_range(..='\u{10FFFF}'),
            deconstruct_range::<char, RangeFull>(..),
        ];
        say("done");
        expect_same(found, OF_CHARACTERS, "ends of ranges of characters");
        expect_same(point, 0x41, "a code");
    });
}

// Sets in ICU's serialized form. The units are those that `uset_serialize` of ICU4C 72 writes;
// invalid ones are made by hand.

/// Expects the units to be `want`.
fn expect_units(found: Vec<u16>, want: &[u16]) {
    expect_same(found.as_slice(), want, "the units");
}

/// Returns the units of the set, or the error.
fn units_of(set: &CodePointInversionList<'_>) -> Result<Vec<u16>, SerializeError> {
    to_serialized(set)
}

/// Returns the set at the start of the units and the number of units that it takes, or the error.
fn set_read(units: &[u16]) -> Result<(CodePointInversionList<'static>, usize), SerializedSetError> {
    from_serialized(units)
}

/// Writes the set of `a` to `z` into a slice that is longer than needed, and into one that is too
/// short.
///
/// Calls: `serialized::write_serialized`, `serialized::serialized_len`.
#[test]
fn written_into_slices_quiet() {
    none_asked(|| {
        let Some(letters) = set_of(&[0x61, 0x7B]) else {
            return;
        };
        let mut long = [7; 4];
        let mut short = [7; 2];
        say("call");
        let found = [
            write_serialized(&letters, &mut long),
            write_serialized(&letters, &mut short),
        ];
        let len = serialized_len(&letters);
        say("done");
        expect_same(found, [Ok(3), Err(WriteError::Short)], "answers");
        expect_same(len, Some(3), "the length");
        expect_same(long, [2, 0x61, 0x7B, 7], "written, and the rest");
        expect_same(short, [7, 7], "nothing written");
    });
}

/// Invalid units, and the errors.
static REFUSED: [(&[u16], SerializedSetError); 11] = [
    (&[], SerializedSetError::Short),
    (&[2, 0x41], SerializedSetError::Short),
    (&[0x8000], SerializedSetError::Short),
    (&[0x8003, 9, 0x41, 0x11], SerializedSetError::Short),
    (&[0x8002, 3, 0x5B, 0x41], SerializedSetError::Count),
    (&[0x8002, 1, 0x41, 1], SerializedSetError::Count),
    (&[2, 0x5B, 0x41], SerializedSetError::Invalid),
    (&[2, 0x41, 0x41], SerializedSetError::Invalid),
    (&[0x8003, 1, 0x41, 0, 0x41], SerializedSetError::Invalid),
    (&[0x8002, 0, 0x11, 0], SerializedSetError::Invalid),
    (
        &[0x8003, 1, 0x41, 0xFFFF, 0xFFFF],
        SerializedSetError::Invalid,
    ),
];

/// Invalid units are rejected before any allocation.
///
/// Calls: `serialized::from_serialized`.
#[test]
fn refused_units_quiet() {
    none_asked(|| {
        say("call");
        for (units, want) in REFUSED.iter() {
            let fault = set_read(units).err();
            expect_same(fault, Some(*want), "the fault");
        }
        say("done");
    });
}

/// Expects the units, if they were written, to be those of the Basic Multilingual Plane.
fn expect_units_of_basic(made: Result<Vec<u16>, SerializeError>) {
    tell(made.is_err());
    if let Ok(units) = made {
        expect_units(units, &[0x8003, 1, 0, 1, 0]);
    }
}

/// Calls: `serialized::to_serialized`.
#[test]
fn to_serialized_refused() {
    each_refused(|| {
        let basic = basic();
        say("call");
        let made = units_of(&basic);
        expect_units_of_basic(made);
        expect_listed(&basic, &[0, 0x1_0000]);
    });
}

/// Expects the set that was read to be the Basic Multilingual Plane. If none was read, expects the
/// error for a failed allocation.
fn expect_basic_or_refused(made: Result<(CodePointInversionList<'_>, usize), SerializedSetError>) {
    tell(made.is_err());
    match made {
        Ok((set, _)) => expect_listed(&set, &[0, 0x1_0000]),
        Err(error) => expect_same(error, SerializedSetError::Memory, "refused"),
    }
}

/// Calls: `serialized::from_serialized`.
#[test]
fn from_serialized_refused() {
    each_refused(|| {
        say("call");
        let made = set_read(&[0x8003, 1, 0, 1, 0]);
        expect_basic_or_refused(made);
    });
}
