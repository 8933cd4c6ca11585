//! Unit tries: their units, look-ups, cursors and listings.

use bekstaudi::char16trie::{Char16Trie, Char16TrieCursor, TrieResult};
use bekstaudi::zerovec::ZeroVec;
use std::iter::from_fn;

// The units of some tries, by the format's description, and how tests make and query tries.

/// The units of a trie of six letters with the values 1 to 6.
pub const SIX: [u16; 15] = [
    5, 0x64, 6, 0x64, 0x8004, 0x65, 0x8005, 0x66, 0x8006, 0x61, 0x8001, 0x62, 0x8002, 0x63, 0x8003,
];

/// The units of a trie of "a" with the value 1 and "ab" with 2.
pub const A_AB: [u16; 5] = [0x30, 0x61, 0xB0, 0x62, 0x8002];

/// The units of a trie of a lead surrogate with the value 1, and of a character that starts with it
/// with 2.
pub const LEAD_PAIR: [u16; 5] = [0x30, 0xD83D, 0xB0, 0xDE00, 0x8002];

/// Returns the trie with these units.
pub fn trie_of(units: &[u16]) -> Char16Trie<'static> {
    Char16Trie::new(units.iter().copied().collect())
}

/// Returns the cursor after some units.
pub fn cursor_after<'a>(trie: &'a Char16Trie<'_>, passed: &[u16]) -> Char16TrieCursor<'a> {
    let mut cursor = trie.cursor();
    for unit in passed {
        cursor.step16(*unit);
    }
    cursor
}

/// Returns the value of a key, looked up unit by unit.
pub fn value_of(trie: &Char16Trie<'_>, key: &[u16]) -> Option<i32> {
    cursor_after(trie, key).value()
}

/// Returns at most 99 entries as one text: each key and its value, as `ab=2;`.
pub fn listed(entries: impl Iterator<Item = (String, i32)>) -> String {
    let lines = entries
        .take(99)
        .map(|(key, value)| format!("{key}={value};"));
    lines.collect()
}

// Unit tries whose entries and results are known from the format's description, and invalid units.

/// Units, their entries, a text, and the result for the last character of the text.
type Row = (&'static [u16], &'static str, &'static str, TrieResult);

/// The units that ICU's builder writes for six keys of one letter, each with a longer key. The
/// values are the smallest and the largest of each length.
const SIX_BY_ICU: [u16; 45] = [
    0x5, 0x64, 0x19, 0x64, 0xA, 0x65, 0xE, 0x66, 0x7FF0, 0xFFFF, 0xFFFF, 0x7A, 0xFFFF, 0x8000, 0x0,
    0x7FB0, 0xFFFF, 0x7A, 0xFFFF, 0x3FFF, 0x0, 0x7FF0, 0xFE, 0x0, 0x7A, 0xFFFF, 0xFFFF, 0xFFFF,
    0x61, 0x8, 0x62, 0x9, 0x63, 0x4070, 0x100, 0x7A, 0xFFFE, 0xFFFF, 0x70, 0x7A, 0xBFFF, 0x4030,
    0x7A, 0xC000, 0x4000,
];

/// Their entries.
const TWELVE: &str = "a=0;az=16383;b=255;bz=16384;c=256;cz=1073676287;d=16646143;dz=1073676288;e=16646144;ez=-1;f=-1;fz=-2147483648;";

/// The entries of the six letters.
const LETTERS: &str = "a=1;b=2;c=3;d=4;e=5;f=6;";

static VALUES: [Row; 9] = [
    (&SIX_BY_ICU, TWELVE, "ez", TrieResult::FinalValue(-1)),
    (
        &SIX_BY_ICU,
        TWELVE,
        "d",
        TrieResult::Intermediate(16_646_143),
    ),
    (&[], "", "a", TrieResult::NoMatch),
    (&[0x8007], "=7;", "a", TrieResult::NoMatch),
    (&[0xC000, 0x0001], "=1;", "a", TrieResult::NoMatch),
    (&[0xFFFF, 0xFFFF, 0xFFFE], "=-2;", "a", TrieResult::NoMatch),
    (
        &[0x31, 0x61, 0x62, 0x8003],
        "ab=3;",
        "a",
        TrieResult::NoValue,
    ),
    (
        &[0x30, 0x61, 0xB0, 0x62, 0x8002],
        "a=1;ab=2;",
        "a",
        TrieResult::Intermediate(1),
    ),
    (
        &[0x30, 0x61, 0xB0, 0x62, 0x8002],
        "a=1;ab=2;",
        "ab",
        TrieResult::FinalValue(2),
    ),
];

/// A pair of surrogates is one character even if its units are in two nodes. Any other surrogate is
/// listed as U+FFFD.
static SURROGATES: [Row; 10] = [
    (
        &[0x31, 0xD83D, 0xDE00, 0x8001],
        "\u{1f600}=1;",
        "\u{1f600}",
        TrieResult::FinalValue(1),
    ),
    // An unpaired surrogate is a key, but not a character.
    (
        &[0x30, 0xD800, 0x8005],
        "\u{fffd}=5;",
        "\u{fffd}",
        TrieResult::NoMatch,
    ),
    // A key that ends with a lead surrogate, and one that continues with its trail.
    (
        &[0x30, 0xD83D, 0xB0, 0xDE00, 0x8002],
        "\u{fffd}=1;\u{1f600}=2;",
        "\u{1f600}",
        TrieResult::FinalValue(2),
    ),
    // Not pairs: a trail alone, a lead before a letter, and a lead before another lead.
    (
        &[0x31, 0xDE00, 0x61, 0x8003],
        "\u{fffd}a=3;",
        "a",
        TrieResult::NoMatch,
    ),
    (
        &[0x31, 0xD800, 0x61, 0x8003],
        "\u{fffd}a=3;",
        "a",
        TrieResult::NoMatch,
    ),
    (
        &[0x32, 0xD800, 0xD83D, 0xDE00, 0x8001],
        "\u{fffd}\u{1f600}=1;",
        "\u{1f600}",
        TrieResult::NoMatch,
    ),
    // Each child of a branch makes a pair with the lead surrogate before the branch.
    (
        &[0x30, 0xD83D, 1, 0xDE00, 0x8001, 0xDE01, 0x8002],
        "\u{1f600}=1;\u{1f601}=2;",
        "\u{1f601}",
        TrieResult::FinalValue(2),
    ),
    // One child makes a pair, and the other does not.
    (
        &[0x30, 0xD83D, 1, 0x61, 0x8001, 0xDE00, 0x8002],
        "\u{fffd}a=1;\u{1f600}=2;",
        "\u{1f600}",
        TrieResult::FinalValue(2),
    ),
    // The lead surrogates are in the branch.
    (
        &[
            1, 0xD83D, 4, 0xD83E, 0x30, 0xDD00, 0x8002, 0x30, 0xDE00, 0x8001,
        ],
        "\u{1f600}=1;\u{1f900}=2;",
        "\u{1f900}",
        TrieResult::FinalValue(2),
    ),
    // The lead surrogate of one key and the trail of the next are not a pair.
    (
        &[1, 0xD83D, 0x8001, 0xDE00, 0x8002],
        "\u{fffd}=1;\u{fffd}=2;",
        "\u{1f600}",
        TrieResult::NoMatch,
    ),
];

static BRANCHES: [Row; 9] = [
    // A jump to the node of an entry, and a final value within the branch.
    (
        &[1, 0x61, 2, 0x62, 0x8002, 0x8001],
        "a=1;b=2;",
        "b",
        TrieResult::FinalValue(2),
    ),
    (
        &[1, 0x61, 0x8001, 0x62, 0x8002],
        "a=1;b=2;",
        "a",
        TrieResult::FinalValue(1),
    ),
    // Branches of four and of five entries are not split.
    (
        &[3, 0x61, 0x8001, 0x62, 0x8002, 0x63, 0x8003, 0x64, 0x8004],
        "a=1;b=2;c=3;d=4;",
        "d",
        TrieResult::FinalValue(4),
    ),
    (
        &[
            4, 0x61, 0x8001, 0x62, 0x8002, 0x63, 0x8003, 0x64, 0x8004, 0x65, 0x8005,
        ],
        "a=1;b=2;c=3;d=4;e=5;",
        "e",
        TrieResult::FinalValue(5),
    ),
    (&SIX, LETTERS, "c", TrieResult::FinalValue(3)),
    (&SIX, LETTERS, "f", TrieResult::FinalValue(6)),
    (&SIX, LETTERS, "g", TrieResult::NoMatch),
    // The greatest delta of two units, which leads past the end, and the half after it.
    (
        &[
            5, 0x64, 0xFFFE, 0xFFFF, 0x64, 0x8004, 0x65, 0x8005, 0x66, 0x8006,
        ],
        "d=4;e=5;f=6;",
        "a",
        TrieResult::NoMatch,
    ),
    (
        &[
            5, 0x64, 0xFFFE, 0xFFFF, 0x64, 0x8004, 0x65, 0x8005, 0x66, 0x8006,
        ],
        "d=4;e=5;f=6;",
        "e",
        TrieResult::FinalValue(5),
    ),
];

/// Results for invalid units. If a needed unit is missing, there is no match, and a truncated value
/// is 0.
static BROKEN: [Row; 9] = [
    (&[0], "", "a", TrieResult::NoMatch),
    (&[0x30], "", "a", TrieResult::NoMatch),
    (&[5, 0x61], "", "a", TrieResult::NoMatch),
    (&[0xFFFF], "=0;", "a", TrieResult::NoMatch),
    (&[0x7FC0], "=0;", "a", TrieResult::NoMatch),
    (
        &[0x30, 0x61, 0xFFFF],
        "a=0;",
        "a",
        TrieResult::FinalValue(0),
    ),
    // A jump past the end.
    (
        &[1, 0x61, 0x3FFF, 0x62, 0x8002],
        "b=2;",
        "a",
        TrieResult::NoMatch,
    ),
    (
        &[1, 0x61, 0x3FFF, 0x62, 0x8002],
        "b=2;",
        "ab",
        TrieResult::NoMatch,
    ),
    (
        &[1, 0x61, 0x3FFF, 0x62, 0x8002],
        "b=2;",
        "b",
        TrieResult::FinalValue(2),
    ),
];

/// Returns the entries, listed with one buffer.
fn entries_of(trie: &Char16Trie<'_>) -> impl Iterator<Item = (String, i32)> {
    let mut entries = trie.entries();
    from_fn(move || {
        let is_left = entries.advance();
        is_left.then(|| (entries.key().to_string(), entries.value()))
    })
}

/// Returns the result for the last character of the text.
fn last_result(trie: &Char16Trie<'_>, text: &str) -> Option<TrieResult> {
    let mut iterator = trie.iter();
    text.chars().map(|c| iterator.next(c)).last()
}

#[test]
fn worked_tries() {
    for rows in [&VALUES[..], &SURROGATES, &BRANCHES, &BROKEN] {
        for (units, entries, text, want) in rows {
            let trie = trie_of(units);
            assert_eq!(last_result(&trie, text), Some(*want), "{units:X?} {text}");
            assert_eq!(listed(trie.iter2()), *entries, "{units:X?}");
            assert_eq!(listed(entries_of(&trie)), *entries, "{units:X?}");
        }
    }
}

/// Units, and the number of their entries if they are a valid trie.
type Counted = (&'static [u16], Option<u64>);

static COUNTED: [Counted; 31] = [
    (&[], Some(0)),
    (&[0x8007], Some(1)),
    (&[0xC000, 0x0001], Some(1)),
    (&[0xFFFF, 0xFFFF, 0xFFFE], Some(1)),
    // A linear match, and one after an intermediate value.
    (&[0x31, 0x61, 0x62, 0x8003], Some(1)),
    (&[0x30, 0x61, 0xB0, 0x62, 0x8002], Some(2)),
    // An intermediate value of three units.
    (&[0x30, 0x61, 0x7FF0, 0xFFFF, 0xFFFF, 0x62, 0x8002], Some(2)),
    // Branches: with a jump, with the greatest unit, and of six entries, which is split.
    (&[1, 0x61, 2, 0x62, 0x8002, 0x8001], Some(2)),
    (&[1, 0, 0x8001, 0xFFFF, 0x8002], Some(2)),
    (&SIX, Some(6)),
    // A branch whose length takes a unit of its own.
    (&[0, 1, 0x61, 0x8001, 0x62, 0x8002], Some(2)),
    // Two entries that lead to one node.
    (&[1, 0x61, 1, 0x62, 0x8001], Some(2)),
    // A split unit that is less than the first upper entry, and units to which no node leads.
    (
        &[
            5, 0x64, 6, 0x65, 0x8004, 0x66, 0x8005, 0x67, 0x8006, 0x61, 0x8001, 0x62, 0x8002, 0x63,
            0x8003,
        ],
        Some(6),
    ),
    (&[0x8007, 0x30], Some(1)),
    // All rows from here on are invalid. A linear match or a branch that is truncated, or that
    // nothing follows.
    (&[0], None),
    (&[0x30], None),
    (&[0x30, 0x61], None),
    (&[0x31, 0x61, 0x62], None),
    (&[5, 0x61], None),
    (&[1, 0x61, 0x8001, 0x62], None),
    (&[1, 0x61, 0x8001], None),
    // A truncated value: a final one of two and of three units, and an intermediate one.
    (&[0xC000], None),
    (&[0xFFFF, 0x1], None),
    (&[0x7FC0, 0x1], None),
    // A jump past the end.
    (&[1, 0x61, 3, 0x62, 0x8002, 0x8001], None),
    // Equal and descending units in a branch.
    (&[1, 0x61, 0x8001, 0x61, 0x8002], None),
    (&[1, 0x62, 0x8001, 0x61, 0x8002], None),
    // A branch of one entry.
    (&[0, 0, 0x61, 0x8001], None),
    // A lower entry whose unit is not below the split unit, and an upper entry whose unit is.
    (
        &[
            5, 0x63, 6, 0x64, 0x8004, 0x65, 0x8005, 0x66, 0x8006, 0x61, 0x8001, 0x62, 0x8002, 0x63,
            0x8003,
        ],
        None,
    ),
    (
        &[
            5, 0x65, 6, 0x64, 0x8004, 0x65, 0x8005, 0x66, 0x8006, 0x61, 0x8001, 0x62, 0x8002, 0x63,
            0x8003,
        ],
        None,
    ),
    // The delta of a split leads past the end.
    (
        &[
            5, 0x64, 0xFBFF, 0x64, 0x8004, 0x65, 0x8005, 0x66, 0x8006, 0x61, 0x8001, 0x62, 0x8002,
            0x63, 0x8003,
        ],
        None,
    ),
];

#[test]
fn entries_that_are_counted() {
    for (units, count) in &COUNTED {
        let trie = trie_of(units);
        let found = (trie.is_trie(), trie.count_entries());
        assert_eq!(found, (count.is_some(), *count), "{units:X?}");
    }
}

/// The number of branches, the units after them, the number of entries, and the value of all
/// entries if it is the same.
type Branches = (usize, &'static [u16], Option<u64>, Option<i32>);

/// Listing the entries of forty branches would take 2^40 steps.
static DOUBLED: [Branches; 8] = [
    (40, &[0x8001], Some(1 << 40), Some(1)),
    (63, &[0x8001], Some(1 << 63), Some(1)),
    (64, &[0x8001], Some(u64::MAX), Some(1)),
    (70, &[0x8001], Some(u64::MAX), Some(1)),
    (40, &[0x8009], Some(1 << 40), Some(9)),
    (40, &[1, 0x61, 0x8009, 0x62, 0x8008], Some(1 << 41), None),
    // No node follows the branches. One call would open 2^40 nodes if they were not counted first.
    (40, &[], None, None),
    (70, &[], None, None),
];

/// The number doubles with each branch, up to the greatest number. Both entries of each branch lead
/// to the next one.
#[test]
fn entries_of_branches() {
    for (count, behind, entries, value) in &DOUBLED {
        let units = [[1, 0x61, 1, 0x62].repeat(*count), behind.to_vec()].concat();
        let trie = trie_of(&units);
        let found = (trie.is_trie(), trie.count_entries());
        assert_eq!(found, (entries.is_some(), *entries), "{count} {behind:X?}");
        let have_entries = [trie.entries().advance(), trie.iter2().next().is_some()];
        assert_eq!(have_entries, [entries.is_some(); 2], "{count} {behind:X?}");
        let found = trie.cursor().unique_value();
        assert_eq!(found, *value, "{count} {behind:X?}");
    }
}

// `Debug` texts of packed vectors, tries and results.

/// A vector, its view, and an iterator after the first value.
#[test]
fn lists() {
    let vector = ZeroVec::<u16>::parse_bytes(&[0x34, 0x12, 255, 0]).expect("no vector");
    assert_eq!(format!("{vector:?}"), "[4660, 255]");
    assert_eq!(format!("{:?}", vector.as_slice()), "[4660, 255]");
    let mut rest = vector.iter();
    rest.next();
    assert_eq!(format!("{rest:?}"), "[255]");
}

#[test]
fn trie_and_result() {
    let shown = format!("{:?}", trie_of(&[0x8007]));
    assert_eq!(shown, "Char16Trie { data: [32775] }");
    assert_eq!(format!("{:?}", TrieResult::NoMatch), "NoMatch");
}
