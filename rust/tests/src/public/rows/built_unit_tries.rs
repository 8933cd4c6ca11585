//! Unit tries that are built, and completions of prefixes.

use crate::unit_tries::{A_AB, LEAD_PAIR, SIX, cursor_after, listed, trie_of, value_of};
use bekstaudi::char16trie::{
    AddError, Char16Trie, Char16TrieBuilder, Char16TrieCursor, CursorPlace, SortedError,
};
use std::iter::from_fn;

// Unit tries that are built, by a builder and directly from entries in unit order: with the entries
// of the format's description, or of ICU. Also entries that are rejected, and sizes.

/// A key and its value.
type Entry<'a> = (&'a [u16], i32);

/// Entries in unit order, and the units that ICU's builder writes for them, if they are listed; ICU
/// writes the same units for a fast trie. Or the error for the entries.
type Row = (
    &'static [Entry<'static>],
    Result<Option<&'static [u16]>, SortedError>,
);

/// Six keys of one letter, each with a longer key. The values are the smallest and the largest of
/// each length.
const TWELVE: [Entry<'static>; 12] = [
    (&[0x61], 0),
    (&[0x61, 0x7A], 0x3FFF),
    (&[0x62], 0xFF),
    (&[0x62, 0x7A], 0x4000),
    (&[0x63], 0x100),
    (&[0x63, 0x7A], 0x3FFE_FFFF),
    (&[0x64], 0xFD_FFFF),
    (&[0x64, 0x7A], 0x3FFF_0000),
    (&[0x65], 0xFE_0000),
    (&[0x65, 0x7A], -1),
    (&[0x66], -1),
    (&[0x66, 0x7A], i32::MIN),
];

/// Enough entries for a branch to be split, with longer keys.
const MANY: [Entry<'static>; 12] = [
    (&[1], 1),
    (&[1, 1], 2),
    (&[2, 1], 3),
    (&[3, 1, 1], 4),
    (&[4], 5),
    (&[5], 6),
    (&[5, 1, 1], 7),
    (&[6], 8),
    (&[7], 9),
    (&[8], 10),
    (&[9, 1], 11),
    (&[9, 2], 12),
];

static ROWS: [Row; 23] = [
    (&[], Ok(Some(&[]))),
    (&[(&[], 7)], Ok(Some(&[0x8007]))),
    (&[(&[], 1)], Ok(None)),
    (&[(&[], 0x4000)], Ok(Some(&[0xC000, 0x4000]))),
    (&[(&[], -2)], Ok(Some(&[0xFFFF, 0xFFFF, 0xFFFE]))),
    (&[(&[0x61, 0x62], 3)], Ok(Some(&[0x31, 0x61, 0x62, 0x8003]))),
    (
        &[(&[0xD83D, 0xDE00], 1)],
        Ok(Some(&[0x31, 0xD83D, 0xDE00, 0x8001])),
    ),
    (
        &[(&[0x61], 1), (&[0x62], 2)],
        Ok(Some(&[1, 0x61, 0x8001, 0x62, 0x8002])),
    ),
    (&TWELVE, Ok(None)),
    (&MANY, Ok(None)),
    (&[(&[0x61], -1)], Ok(None)),
    (&[(&[0x61], 1), (&[0x61, 0x62], 2)], Ok(None)),
    (&[(&[], 1), (&[0x61, 0x62], 2)], Ok(None)),
    (&[(&[], 7), (&[0x61], 8), (&[0x62], 8)], Ok(None)),
    // A key is a prefix of the next ones.
    (
        &[(&[0x61], 1), (&[0x61, 0], 2), (&[0x61, 0x62, 0x63], 3)],
        Ok(None),
    ),
    // Unpaired surrogates can be keys, but are not characters.
    (&[(&[0xD800], 1), (&[0xDC00], 2)], Ok(None)),
    // In unit order, a character above U+FFFF is before U+E000.
    (&[(&[0xD83D, 0xDE00], 1), (&[0xE000], 2)], Ok(None)),
    (
        &[(&[0xD83D], 1), (&[0xD83D, 0xDE00], 2), (&[0xE000], 3)],
        Ok(None),
    ),
    (
        &[(&[0x62], 1), (&[0x61], 2)],
        Err(SortedError::NotAscending(1)),
    ),
    // The same key again with the same value, and the empty key.
    (
        &[(&[0x61], 1), (&[0x61], 1), (&[0x61], 1)],
        Err(SortedError::NotAscending(1)),
    ),
    (&[(&[], 1), (&[], 2)], Err(SortedError::NotAscending(1))),
    // A key after one that it is a prefix of, and a longer key with a lower unit.
    (
        &[(&[0x61], 1), (&[0x62, 0x63], 2), (&[0x62], 3), (&[1], 4)],
        Err(SortedError::NotAscending(2)),
    ),
    (
        &[(&[1], 1), (&[2], 2), (&[3], 3), (&[2, 9, 9], 4)],
        Err(SortedError::NotAscending(3)),
    ),
];

/// Returns the trie of these entries, of which the last is added first.
fn built(entries: &[Entry<'_>]) -> Char16Trie<'static> {
    let mut builder = Char16TrieBuilder::new();
    for (key, value) in entries.iter().rev() {
        assert_eq!(builder.add(key, *value), Ok(()), "{key:X?}");
    }
    builder.try_build().expect("not built")
}

/// Expects a trie to have exactly these entries, in whatever order they were added.
fn expect_entries(trie: &Char16Trie<'_>, entries: &[Entry<'_>]) {
    assert_eq!(
        trie.count_entries(),
        Some(entries.len() as u64),
        "{entries:X?}"
    );
    for (key, value) in entries {
        assert_eq!(value_of(trie, key), Some(*value), "{key:X?}");
    }
    assert_eq!(*trie, built(entries), "{entries:X?}");
}

#[test]
fn worked_tries() {
    for (entries, want) in &ROWS {
        let sorted = Char16TrieBuilder::build_sorted(entries);
        match want {
            Ok(units) => {
                let trie = sorted.expect("no trie");
                expect_entries(&trie, entries);
                assert!(units.is_none_or(|it| trie == trie_of(it)), "{entries:X?}");
            }
            Err(error) => assert_eq!(sorted, Err(*error), "{entries:X?}"),
        }
    }
}

/// ICU's builder writes as many units for these keys.
#[test]
fn length_of_twelve_keys() {
    assert_eq!(built(&TWELVE).data.len(), 45);
}

/// Returns the number of units in a trie of four keys with these values: a unit of its own each,
/// followed by the unit 7 forty times.
fn len_of_four(values: [i32; 4]) -> usize {
    let key = |first: u16| [vec![first], vec![7; 40]].concat();
    let keys = [1, 2, 3, 4].map(key);
    let entries: Vec<Entry<'_>> = keys.iter().map(Vec::as_slice).zip(values).collect();
    built(&entries).data.len()
}

/// The forty units take 43 units with their lead units, and the value takes one. The last of the
/// four nodes is part of the branch itself, so four equal nodes are written twice instead of four
/// times.
#[test]
fn equal_nodes() {
    assert_eq!(len_of_four([1, 2, 3, 4]), len_of_four([1; 4]) + 2 * 44);
}

/// Of two keys, only the one of 65,535 units is added, and only once. Its trie has 4,095 linear
/// matches of 16 units and one of 15, each with its lead unit, and the value.
#[test]
fn longest_keys() {
    let (longest, longer) = ([5; 65_535], [5; 65_536]);
    let mut builder = Char16TrieBuilder::new();
    let rows: [(&[u16], _); 4] = [
        (&longer, Err(AddError::KeyTooLong)),
        (&longest, Ok(())),
        (&longer, Err(AddError::KeyTooLong)),
        (&longest, Err(AddError::Duplicate)),
    ];
    for ((key, want), value) in rows.into_iter().zip(1..) {
        assert_eq!(builder.add(key, value), want, "{} units", key.len());
    }
    let trie = builder.try_build().expect("not built");
    assert_eq!(
        [value_of(&trie, &longest), value_of(&trie, &longer)],
        [Some(2), None]
    );
    assert_eq!(trie.data.len(), 65_535 + 4096 + 1);
}

/// Each unit below `count` is a key, whose value is the unit, and no other unit is one.
#[test]
fn branches_of_many_units() {
    for count in [1, 2, 5, 6, 0x30, 0x31, 300, 0xFFFF] {
        let mut builder = Char16TrieBuilder::new();
        for unit in 0..count {
            builder.add(&[unit], i32::from(unit)).expect("not added");
        }
        let trie = builder.try_build().expect("not built");
        for unit in 0..0xFFFF {
            let want = (unit < count).then_some(i32::from(unit));
            assert_eq!(value_of(&trie, &[unit]), want, "{unit:X} of {count}");
        }
    }
}

/// A delta is above 0xFBFF, so it takes two units.
#[test]
fn ten_keys_of_20_000_units() {
    let keys: Vec<Vec<u16>> = (1..11).map(|unit| vec![unit; 20_000]).collect();
    let entries: Vec<Entry<'_>> = keys.iter().map(Vec::as_slice).zip(1..).collect();
    let trie = built(&entries);
    for (key, value) in &entries {
        let found = [value_of(&trie, key), value_of(&trie, &key[1..])];
        assert_eq!(found, [Some(*value), None], "key {value}");
    }
}

/// The same key is added as a text and by its units.
#[test]
fn texts_as_keys() {
    let mut builder = Char16TrieBuilder::new();
    assert_eq!(builder.add_str("a", 1), Ok(()));
    assert_eq!(builder.add_str("\u{1f600}", 2), Ok(()));
    let again = Err(AddError::Duplicate);
    assert_eq!(builder.add(&[0xD83D, 0xDE00], 3), again);
    assert_eq!(builder.add_str("a", 4), again);
    assert_eq!((builder.len(), builder.is_empty()), (2, false));
    let trie = builder.try_build().expect("not built");
    let found = [value_of(&trie, &[0x61]), value_of(&trie, &[0xD83D, 0xDE00])];
    assert_eq!(found, [Some(1), Some(2)]);
}

// The entries that continue from a cursor, the next units, and the value that all of them have.

/// The units of a trie of "abc" with the value 3 and "abcd" with 4.
const RUN: [u16; 7] = [0x32, 0x61, 0x62, 0x63, 0x130, 0x64, 0x8004];

/// The units of a trie of "a" with the value 1, "ab" with 1 and "b" with 3.
const ALIKE: [u16; 8] = [1, 0x61, 2, 0x62, 0x8003, 0xB0, 0x62, 0x8001];

/// An expected result for the keys that continue from a cursor.
enum Told {
    /// The entries.
    Entries(&'static str),
    /// The next units of the keys.
    Units(&'static [u16]),
    /// The value of all of them, if they have the same value.
    Value(Option<i32>),
}

/// The units of a trie, the units to pass, and the expected result after them.
type Completion = (&'static [u16], &'static [u16], Told);

static COMPLETIONS: [Completion; 56] = [
    (&A_AB, &[], Told::Entries("a=1;ab=2;")),
    (&A_AB, &[0x61], Told::Entries("=1;b=2;")),
    (&A_AB, &[0x61, 0x62], Told::Entries("=2;")),
    (&A_AB, &[0x61, 0x62, 0x63], Told::Entries("")),
    (&A_AB, &[0x62], Told::Entries("")),
    // A cursor within a linear match: the rest of the match comes first.
    (&RUN, &[], Told::Entries("abc=3;abcd=4;")),
    (&RUN, &[0x61], Told::Entries("bc=3;bcd=4;")),
    (&RUN, &[0x61, 0x62], Told::Entries("c=3;cd=4;")),
    (&RUN, &[0x61, 0x62, 0x63], Told::Entries("=3;d=4;")),
    (&RUN, &[0x61, 0x63], Told::Entries("")),
    (&SIX, &[], Told::Entries("a=1;b=2;c=3;d=4;e=5;f=6;")),
    (&SIX, &[0x65], Told::Entries("=5;")),
    (&[0x8007], &[], Told::Entries("=7;")),
    (&[], &[], Told::Entries("")),
    // A trail surrogate is unpaired if its lead was passed, and so is a lead at the end of a key.
    (&LEAD_PAIR, &[], Told::Entries("\u{fffd}=1;\u{1f600}=2;")),
    (&LEAD_PAIR, &[0xD83D], Told::Entries("=1;\u{fffd}=2;")),
    // Invalid units: a truncated value is 0, and a truncated linear match has no entry.
    (&[0x30, 0x61, 0xFFFF], &[0x61], Told::Entries("=0;")),
    (&[0x33, 0x61, 0x62], &[0x61], Told::Entries("")),
    // The next units of the keys.
    (&A_AB, &[], Told::Units(&[0x61])),
    (&A_AB, &[0x61], Told::Units(&[0x62])),
    (&A_AB, &[0x61, 0x62], Told::Units(&[])),
    (&A_AB, &[0x62], Told::Units(&[])),
    (&RUN, &[0x61], Told::Units(&[0x62])),
    (&RUN, &[0x61, 0x62, 0x63], Told::Units(&[0x64])),
    (
        &SIX,
        &[],
        Told::Units(&[0x61, 0x62, 0x63, 0x64, 0x65, 0x66]),
    ),
    (&SIX, &[0x61], Told::Units(&[])),
    (&LEAD_PAIR, &[0xD83D], Told::Units(&[0xDE00])),
    (&[0x8007], &[], Told::Units(&[])),
    (&[], &[], Told::Units(&[])),
    // A branch whose length takes a unit of its own.
    (
        &[0, 1, 0x61, 0x8001, 0x62, 0x8002],
        &[],
        Told::Units(&[0x61, 0x62]),
    ),
    // Invalid units: missing units are not continued.
    (&[0], &[], Told::Units(&[])),
    (&[2, 0x61, 0x8001, 0x62], &[], Told::Units(&[0x61])),
    (&[0x31], &[], Told::Units(&[])),
    // The value of all keys that continue.
    (&A_AB, &[], Told::Value(None)),
    (&A_AB, &[0x61], Told::Value(None)),
    (&A_AB, &[0x61, 0x62], Told::Value(Some(2))),
    (&A_AB, &[0x62], Told::Value(None)),
    (&ALIKE, &[], Told::Value(None)),
    (&ALIKE, &[0x61], Told::Value(Some(1))),
    (&ALIKE, &[0x61, 0x62], Told::Value(Some(1))),
    (&ALIKE, &[0x62], Told::Value(Some(3))),
    (&SIX, &[], Told::Value(None)),
    (&SIX, &[0x66], Told::Value(Some(6))),
    (&RUN, &[0x61], Told::Value(None)),
    (&RUN, &[0x61, 0x62, 0x63, 0x64], Told::Value(Some(4))),
    // Within a linear match.
    (
        &[0x32, 0x61, 0x62, 0x63, 0x8005],
        &[0x61],
        Told::Value(Some(5)),
    ),
    (&[0x8007], &[], Told::Value(Some(7))),
    (&[0xFFFF, 0xFFFF, 0xFFFF], &[], Told::Value(Some(-1))),
    (&[], &[], Told::Value(None)),
    // A node to which both units of a branch lead.
    (&[1, 0x61, 1, 0x62, 0x8001], &[], Told::Value(Some(1))),
    // Invalid units: a truncated value, linear match and branch, descending units, and a jump past
    // the end.
    (&[0x30, 0x61, 0xFFFF], &[0x61], Told::Value(None)),
    (&[0x33, 0x61, 0x62], &[0x61], Told::Value(None)),
    (&[1, 0x61, 0x8001], &[], Told::Value(None)),
    (&[1, 0x62, 0x8001, 0x61, 0x8001], &[], Told::Value(None)),
    (&[1, 0x61, 3, 0x62, 0x8001, 0x8001], &[], Told::Value(None)),
    // Invalid units of which a part is valid.
    (
        &[1, 0x62, 0x8001, 0x61, 0x8001],
        &[0x61],
        Told::Value(Some(1)),
    ),
];

/// Returns the entries that continue from a cursor, as one text.
fn entries_from(cursor: &Char16TrieCursor<'_>) -> String {
    let mut entries = cursor.entries();
    listed(from_fn(|| {
        let is_left = entries.advance();
        is_left.then(|| (entries.key().to_string(), entries.value()))
    }))
}

#[test]
fn completions() {
    for (units, passed, want) in &COMPLETIONS {
        let trie = trie_of(units);
        let cursor = cursor_after(&trie, passed);
        let at = format!("{units:X?} after {passed:X?}");
        match want {
            Told::Entries(want) => assert_eq!(entries_from(&cursor), *want, "{at}"),
            Told::Units(want) => assert_eq!(cursor.next_units(), *want, "{at}"),
            Told::Value(want) => assert_eq!(cursor.unique_value(), *want, "{at}"),
        }
    }
}

/// Positions in the units of "abc" and "abcd", and the entries from there. In the second row, the
/// unit of "c" is read as a lead unit: as the value 0 and a branch, which is truncated.
static PLACES: [(usize, u16, &str); 7] = [
    (1, 3, "abc=3;abcd=4;"),
    (2, 1, "b=0;"),
    (4, 0, "=3;d=4;"),
    (6, 0, "=4;"),
    (1, 256, ""),
    (0, 257, ""),
    ((1 << 63) - 1, 256, ""),
];

#[test]
fn completions_from_places() {
    let trie = trie_of(&RUN);
    for (position, left, want) in PLACES {
        let place = CursorPlace { position, left };
        let cursor = Char16TrieCursor::resume(trie.data.as_slice(), place);
        assert_eq!(entries_from(&cursor), want, "{position} {left}");
    }
}
