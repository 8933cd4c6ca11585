//! The tries that tests query, and how keys are found in them.

use crate::icu_char16trie::char16trie::{Char16Trie, Char16TrieCursor, Entries, Iter2};
use crate::icu_zerovec::{MemoryError, ZeroSlice};
use crate::memory::support::expect_done;
use crate::memory::vectors::{packed_of, view_of};
use crate::refusals::{none_asked, say};
use crate::support::prelude::*;

// The tries that tests query.

/// The units of a trie of six letters with the values 1 to 6.
pub const SIX: [u16; 15] = [
    5, 0x64, 6, 0x64, 0x8004, 0x65, 0x8005, 0x66, 0x8006, 0x61, 0x8001, 0x62, 0x8002, 0x63, 0x8003,
];

/// The units of a trie of "a" with the value 1 and "ab" with 2.
pub const A_AB: [u16; 5] = [0x30, 0x61, 0xB0, 0x62, 0x8002];

/// The units of a trie of a lead surrogate with the value 1, and of a character that starts with it
/// with 2.
pub const LEAD_PAIR: [u16; 5] = [0x30, 0xD83D, 0xB0, 0xDE00, 0x8002];

/// Returns the trie with these units.
fn trie_of(units: &[u16]) -> Result<Char16Trie<'static>, MemoryError> {
    Ok(Char16Trie::new(packed_of(units)?))
}

/// Returns the trie with these units, or `None` if an allocation fails.
pub fn some_trie(units: &[u16]) -> Option<Char16Trie<'static>> {
    match trie_of(units) {
        Ok(trie) => Some(trie),
        Err(_) => None,
    }
}

/// Returns true if two tries are equal.
pub fn are_same(one: &Char16Trie<'_>, other: &Char16Trie<'_>) -> bool {
    *one == *other
}

/// Returns the units of a trie.
pub fn units_of<'a>(trie: &'a Char16Trie<'_>) -> ZeroSlice<'a, u16> {
    view_of(&trie.data)
}

/// Returns the cursor at the root.
pub fn cursor_of<'a>(trie: &'a Char16Trie<'_>) -> Char16TrieCursor<'a> {
    trie.cursor()
}

/// Returns the cursor after some units.
pub fn cursor_after<'a>(trie: &'a Char16Trie<'_>, passed: &[u16]) -> Char16TrieCursor<'a> {
    let mut cursor = cursor_of(trie);
    for unit in passed.iter() {
        cursor.step16(*unit);
    }
    cursor
}

/// Returns the value of a key, looked up unit by unit.
pub fn value_of(trie: &Char16Trie<'_>, key: &[u16]) -> Option<i32> {
    cursor_after(trie, key).value()
}

/// Returns the entries of a trie, each with a text of its own.
pub fn items_of<'a>(trie: &'a Char16Trie<'_>) -> Iter2<'a> {
    trie.try_iter2()
}

/// Returns the next of these entries, if one is left.
pub fn next_item(items: &mut Iter2<'_>) -> Result<Option<(String, i32)>, MemoryError> {
    match items.next() {
        Some(Ok(item)) => Ok(Some(item)),
        Some(Err(error)) => Err(error),
        None => Ok(None),
    }
}

/// Returns true if none of these entries is left.
pub fn is_over(items: &mut Iter2<'_>) -> bool {
    matches!(next_item(items), Ok(None))
}

/// Returns the entries of a trie, with one buffer.
pub fn entries_of<'a>(trie: &'a Char16Trie<'_>) -> Entries<'a> {
    trie.entries()
}

/// Returns the entries that continue from a cursor.
pub fn entries_from<'a>(cursor: &Char16TrieCursor<'a>) -> Entries<'a> {
    cursor.entries()
}

/// Moves to the next entry. Returns whether there is one.
pub fn advanced(entries: &mut Entries<'_>) -> Result<bool, MemoryError> {
    entries.try_advance()
}

/// Returns the current entry of a listing.
pub fn told<'a>(entries: &'a Entries<'_>) -> (&'a str, i32) {
    (entries.key(), entries.value())
}

/// Returns true if the units of a trie are valid.
pub fn is_trie(trie: &Char16Trie<'_>) -> Result<bool, MemoryError> {
    trie.try_is_trie()
}

/// Returns the number of entries of a trie.
pub fn count_of(trie: &Char16Trie<'_>) -> Result<Option<u64>, MemoryError> {
    trie.try_count_entries()
}

// The value of a key, and the keys that are prefixes of a text: the longest one, and all of them.
// Finding them does not allocate.

/// The units of a trie of the empty key with the value 7 and "a" with 1.
const EMPTY_A: [u16; 3] = [0x230, 0x61, 0x8001];

/// A text of units or of characters.
enum Text {
    Units(&'static [u16]),
    Characters(&'static str),
}

/// The units of a trie, a text, and the length and value of the longest key that is a prefix of the
/// text.
type Row = (&'static [u16], Text, Option<(usize, i32)>);

/// The units of a trie, a key, and its value.
type KeyRow = (&'static [u16], Text, Option<i32>);

static KEYS: [KeyRow; 24] = [
    (&A_AB, Text::Units(&[0x61]), Some(1)),
    (&A_AB, Text::Units(&[0x61, 0x62]), Some(2)),
    (&A_AB, Text::Units(&[0x61, 0x62, 0x63]), None),
    (&A_AB, Text::Units(&[0x62]), None),
    (&A_AB, Text::Units(&[]), None),
    (&EMPTY_A, Text::Units(&[]), Some(7)),
    (&EMPTY_A, Text::Units(&[0x61]), Some(1)),
    (&[0x31, 0x61, 0x62, 0x8003], Text::Units(&[0x61]), None),
    (
        &[0x31, 0x61, 0x62, 0x8003],
        Text::Units(&[0x61, 0x62]),
        Some(3),
    ),
    (&SIX, Text::Units(&[0x63]), Some(3)),
    (&SIX, Text::Units(&[0x67]), None),
    (&LEAD_PAIR, Text::Units(&[0xD83D]), Some(1)),
    (&LEAD_PAIR, Text::Units(&[0xD83D, 0xDE00]), Some(2)),
    (&LEAD_PAIR, Text::Units(&[0xD83D, 0xDE01]), None),
    // Invalid units: if a needed unit is missing, there is no value, and a truncated value is 0.
    (&[], Text::Units(&[]), None),
    (&[0xFFFF], Text::Units(&[]), Some(0)),
    (&[0x30], Text::Units(&[0x61]), None),
    (&A_AB, Text::Characters("ab"), Some(2)),
    (&A_AB, Text::Characters("abc"), None),
    (&A_AB, Text::Characters(""), None),
    (&EMPTY_A, Text::Characters(""), Some(7)),
    (&[0x30, 0xE9, 0x8001], Text::Characters("\u{e9}"), Some(1)),
    (&LEAD_PAIR, Text::Characters("\u{1f600}"), Some(2)),
    (&LEAD_PAIR, Text::Characters("\u{1f601}"), None),
];

static LONGEST: [Row; 35] = [
    (&A_AB, Text::Units(&[0x61, 0x62, 0x63]), Some((2, 2))),
    (&A_AB, Text::Units(&[0x61, 0x62]), Some((2, 2))),
    (&A_AB, Text::Units(&[0x61, 0x63]), Some((1, 1))),
    (&A_AB, Text::Units(&[0x61]), Some((1, 1))),
    (&A_AB, Text::Units(&[0x62]), None),
    (&A_AB, Text::Units(&[]), None),
    // A key in the text, but not at its start.
    (&A_AB, Text::Units(&[0x63, 0x61]), None),
    // The empty key is a prefix of every text.
    (&[0x8007], Text::Units(&[]), Some((0, 7))),
    (&[0x8007], Text::Units(&[0x61]), Some((0, 7))),
    (&EMPTY_A, Text::Units(&[]), Some((0, 7))),
    (&EMPTY_A, Text::Units(&[0x62]), Some((0, 7))),
    (&EMPTY_A, Text::Units(&[0x61, 0x61]), Some((1, 1))),
    // A text that ends within a linear match.
    (&[0x31, 0x61, 0x62, 0x8003], Text::Units(&[0x61]), None),
    (
        &[0x31, 0x61, 0x62, 0x8003],
        Text::Units(&[0x61, 0x62]),
        Some((2, 3)),
    ),
    (
        &[0x31, 0x61, 0x62, 0x8003],
        Text::Units(&[0x61, 0x61, 0x62]),
        None,
    ),
    (&SIX, Text::Units(&[0x63, 0x63]), Some((1, 3))),
    (&SIX, Text::Units(&[0x67]), None),
    // Units are matched, not characters.
    (&LEAD_PAIR, Text::Units(&[0xD83D, 0xDE01]), Some((1, 1))),
    (&LEAD_PAIR, Text::Units(&[0xD83D, 0xDE00]), Some((2, 2))),
    // Invalid units: if a needed unit is missing, there is no match, and a truncated value is 0.
    (&[], Text::Units(&[0x61]), None),
    (&[0xFFFF], Text::Units(&[0x61]), Some((0, 0))),
    (&[0x30], Text::Units(&[0x61]), None),
    (
        &[1, 0x61, 0x3FFF, 0x62, 0x8002],
        Text::Units(&[0x61, 0x62]),
        None,
    ),
    (
        &[1, 0x61, 0x3FFF, 0x62, 0x8002],
        Text::Units(&[0x62]),
        Some((1, 2)),
    ),
    // In a text of characters, the length of a key is in bytes.
    (&A_AB, Text::Characters("abc"), Some((2, 2))),
    (&A_AB, Text::Characters("ac"), Some((1, 1))),
    (&A_AB, Text::Characters(""), None),
    (&A_AB, Text::Characters("\u{e9}"), None),
    (&EMPTY_A, Text::Characters("\u{e9}"), Some((0, 7))),
    (
        &[0x30, 0xE9, 0x8001],
        Text::Characters("\u{e9}s"),
        Some((2, 1)),
    ),
    (
        &[0x31, 0x4E2D, 0x61, 0x8005],
        Text::Characters("\u{4e2d}ab"),
        Some((4, 5)),
    ),
    (&LEAD_PAIR, Text::Characters("\u{1f600}a"), Some((4, 2))),
    // A key that ends between the two units of a character.
    (&LEAD_PAIR, Text::Characters("\u{1f601}"), None),
    (&[0x30, 0xD83D, 0x8001], Text::Characters("\u{1f600}"), None),
    (&[], Text::Characters("a"), None),
];

/// The units of a trie, a text, and all keys that are prefixes of the text, which are at most two.
type AllRow = (&'static [u16], &'static [u16], [Option<(usize, i32)>; 3]);

static ALL: [AllRow; 7] = [
    (
        &A_AB,
        &[0x61, 0x62, 0x63],
        [Some((1, 1)), Some((2, 2)), None],
    ),
    (&A_AB, &[0x61], [Some((1, 1)), None, None]),
    (&A_AB, &[0x62, 0x61], [None; 3]),
    (&EMPTY_A, &[0x61], [Some((0, 7)), Some((1, 1)), None]),
    (&EMPTY_A, &[], [Some((0, 7)), None, None]),
    (
        &LEAD_PAIR,
        &[0xD83D, 0xDE00],
        [Some((1, 1)), Some((2, 2)), None],
    ),
    (&[], &[0x61], [None; 3]),
];

/// Returns the value of a key.
fn value_of_text(trie: &Char16Trie<'_>, key: &Text) -> Option<i32> {
    match key {
        Text::Units(key) => trie.get(key),
        Text::Characters(key) => trie.get_str(key),
    }
}

/// Expects this value of a key.
fn expect_value(units: &[u16], key: &Text, want: Option<i32>) {
    let Some(trie) = some_trie(units) else {
        return;
    };
    say("call");
    let found = value_of_text(&trie, key);
    expect_done((units, found), (units, want), "the value of a key");
}

/// Calls: `Char16Trie::get`, `Char16Trie::get_str`.
#[test]
fn values_of_keys_quiet() {
    none_asked(|| {
        for (units, key, want) in KEYS.iter() {
            expect_value(units, key, *want);
        }
    });
}

/// Returns the longest key that is a prefix of a text.
fn longest_of(trie: &Char16Trie<'_>, text: &Text) -> Option<(usize, i32)> {
    match text {
        Text::Units(units) => trie.longest_match(units),
        Text::Characters(text) => trie.longest_match_str(text),
    }
}

/// Expects this longest key that is a prefix of a text.
fn expect_longest(units: &[u16], text: &Text, want: Option<(usize, i32)>) {
    let Some(trie) = some_trie(units) else {
        return;
    };
    say("call");
    let found = longest_of(&trie, text);
    expect_done((units, found), (units, want), "the longest match");
}

/// Calls: `Char16Trie::longest_match`, `Char16Trie::longest_match_str`.
#[test]
fn longest_matches_quiet() {
    none_asked(|| {
        for (units, text, want) in LONGEST.iter() {
            expect_longest(units, text, *want);
        }
    });
}

/// Returns the first three items of the matches of a text, which has at most two.
fn three_matches(trie: &Char16Trie<'_>, text: &[u16]) -> [Option<(usize, i32)>; 3] {
    let mut matches = trie.matches(text);
    [matches.next(), matches.next(), matches.next()]
}

/// Expects exactly these keys to be prefixes of a text.
fn expect_matches(units: &[u16], text: &[u16], want: [Option<(usize, i32)>; 3]) {
    let Some(trie) = some_trie(units) else {
        return;
    };
    say("call");
    let found = three_matches(&trie, text);
    expect_done((units, found), (units, want), "all matches");
}

/// Calls: `Char16Trie::matches`, `Matches::next`.
#[test]
fn matches_quiet() {
    none_asked(|| {
        for (units, text, want) in ALL.iter() {
            expect_matches(units, text, *want);
        }
    });
}
