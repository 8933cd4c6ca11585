//! Unit tries: cursors, listings, and functions that may allocate.

use crate::icu_char16trie::char16trie::{
    Char16Trie, Char16TrieCursor, Char16TrieIterator, CursorPlace, Entries, Iter2, TrieResult,
};
use crate::icu_zerovec::{MemoryError, ZeroSlice};
use crate::memory::dictionaries::{
    A_AB, LEAD_PAIR, SIX, advanced, are_same, count_of, cursor_of, entries_from, entries_of,
    is_over, is_trie, items_of, next_item, some_trie, told, units_of,
};
use crate::memory::support::{expect, expect_answer, expect_done, expect_same};
use crate::refusals::{each_refused, none_asked, say};
use core::fmt::Write;

// Steps of cursors and iterators. None of them allocates.

/// A step of a cursor or an iterator.
enum Step {
    Character(char),
    Unit(u16),
    Number(u32),
    /// Writes a text to a cursor, or passes its characters to an iterator.
    Text(&'static str),
    /// Writes a character to a cursor, or passes it to an iterator.
    Written(char),
    /// Replaces it by a clone.
    Cloned,
    /// Replaces a cursor by one that is resumed at the same position, and an iterator by a clone.
    Resumed,
    /// Replaces it by a new one on the same units.
    Renewed,
}

/// Applies a step to a cursor. Returns `None` if the step fails.
fn pass<'a>(
    cursor: &mut Char16TrieCursor<'a>,
    units: ZeroSlice<'a, u16>,
    step: &Step,
) -> Option<()> {
    match step {
        Step::Character(c) => cursor.step(*c),
        Step::Unit(unit) => cursor.step16(*unit),
        Step::Number(number) => cursor.step32(*number),
        Step::Text(text) => cursor.write_str(text).ok()?,
        Step::Written(c) => cursor.write_char(*c).ok()?,
        Step::Cloned => *cursor = cursor.clone(),
        Step::Resumed => *cursor = Char16TrieCursor::resume(units, cursor.place()),
        Step::Renewed => *cursor = Char16TrieCursor::new(units),
    }
    Some(())
}

/// Returns the result at a cursor, in the form that an iterator returns.
fn result_at(cursor: &Char16TrieCursor<'_>) -> TrieResult {
    match (cursor.value(), cursor.is_empty()) {
        (Some(value), true) => TrieResult::FinalValue(value),
        (Some(value), false) => TrieResult::Intermediate(value),
        (None, true) => TrieResult::NoMatch,
        (None, false) => TrieResult::NoValue,
    }
}

/// Returns the result at a cursor after these steps, or `None` if one fails.
fn told_by_cursor(trie: &Char16Trie<'_>, steps: &[Step]) -> Option<TrieResult> {
    let units = units_of(trie);
    let mut cursor = cursor_of(trie);
    for step in steps.iter() {
        pass(&mut cursor, units, step)?;
    }
    Some(result_at(&cursor))
}

/// Returns the last result of an iterator for the characters of a text.
fn result_of_text(iterator: &mut Char16TrieIterator<'_>, text: &str) -> Option<TrieResult> {
    let mut result = None;
    for c in text.chars() {
        result = Some(iterator.next(c));
    }
    result
}

/// Applies a step to an iterator. Returns its result, if the step has one.
fn result_of_step<'a>(
    iterator: &mut Char16TrieIterator<'a>,
    units: ZeroSlice<'a, u16>,
    step: &Step,
) -> Option<TrieResult> {
    match step {
        Step::Character(c) | Step::Written(c) => Some(iterator.next(*c)),
        Step::Unit(unit) => Some(iterator.next16(*unit)),
        Step::Number(number) => Some(iterator.next32(*number)),
        Step::Text(text) => result_of_text(iterator, text),
        Step::Cloned | Step::Resumed => {
            *iterator = iterator.clone();
            None
        }
        Step::Renewed => {
            *iterator = Char16TrieIterator::new(units);
            None
        }
    }
}

/// Returns the result of an iterator for the last of these steps.
fn told_by_iterator(trie: &Char16Trie<'_>, steps: &[Step]) -> Option<TrieResult> {
    let units = units_of(trie);
    let mut iterator = trie.iter();
    let mut result = None;
    for step in steps.iter() {
        result = result_of_step(&mut iterator, units, step);
    }
    result
}

/// The units of a trie of "ab" with the value 3.
const AB: [u16; 4] = [0x31, 0x61, 0x62, 0x8003];

/// The units of a trie of a character of two units with the value 1.
const PAIR: [u16; 4] = [0x31, 0xD83D, 0xDE00, 0x8001];

/// The units of a trie, steps, and the expected result after them.
type Row = (&'static [u16], &'static [Step], TrieResult);

static ROWS: [Row; 33] = [
    (&AB, &[Step::Text("ab")], TrieResult::FinalValue(3)),
    (&AB, &[Step::Character('a')], TrieResult::NoValue),
    // After a character that does not match, no character matches.
    (&AB, &[Step::Character('x')], TrieResult::NoMatch),
    (
        &AB,
        &[Step::Character('x'), Step::Character('a')],
        TrieResult::NoMatch,
    ),
    (
        &AB,
        &[Step::Character('a'), Step::Cloned, Step::Written('b')],
        TrieResult::FinalValue(3),
    ),
    (
        &AB,
        &[Step::Character('a'), Step::Resumed, Step::Character('b')],
        TrieResult::FinalValue(3),
    ),
    (
        &AB,
        &[Step::Text("ab"), Step::Resumed, Step::Character('a')],
        TrieResult::NoMatch,
    ),
    (
        &A_AB,
        &[Step::Text("ab"), Step::Renewed, Step::Character('a')],
        TrieResult::Intermediate(1),
    ),
    (&SIX, &[Step::Character('a')], TrieResult::FinalValue(1)),
    (&SIX, &[Step::Unit(0x62)], TrieResult::FinalValue(2)),
    (&SIX, &[Step::Number(0x63)], TrieResult::FinalValue(3)),
    (
        &SIX,
        &[Step::Cloned, Step::Written('f')],
        TrieResult::FinalValue(6),
    ),
    // A character by its units, and as a character.
    (&PAIR, &[Step::Unit(0xD83D)], TrieResult::NoValue),
    (
        &PAIR,
        &[Step::Unit(0xD83D), Step::Cloned, Step::Unit(0xDE01)],
        TrieResult::NoMatch,
    ),
    (
        &PAIR,
        &[Step::Unit(0xD83D), Step::Number(0xDE00)],
        TrieResult::FinalValue(1),
    ),
    (
        &PAIR,
        &[Step::Character('\u{1f600}')],
        TrieResult::FinalValue(1),
    ),
    (&PAIR, &[Step::Number(0x1_F600)], TrieResult::FinalValue(1)),
    (&PAIR, &[Step::Text("\u{1f600}")], TrieResult::FinalValue(1)),
    (
        &PAIR,
        &[Step::Written('\u{1f600}')],
        TrieResult::FinalValue(1),
    ),
    (
        &LEAD_PAIR,
        &[Step::Unit(0xD83D), Step::Unit(0xDE00)],
        TrieResult::FinalValue(2),
    ),
    (
        &LEAD_PAIR,
        &[Step::Number(0xD83D)],
        TrieResult::Intermediate(1),
    ),
    // A number above the code points is not truncated to units that are a key.
    (&LONE, &[Step::Number(0x11_0000)], TrieResult::NoMatch),
    (&LONE, &[Step::Number(0x12_0000)], TrieResult::NoMatch),
    (&LONE, &[Step::Number(0xFFFF_FFFF)], TrieResult::NoMatch),
    (&CUT, &[Step::Number(0x11_0000)], TrieResult::NoMatch),
    (&CUT, &[Step::Number(0x12_0000)], TrieResult::NoMatch),
    (&CUT, &[Step::Number(0xFFFF_FFFF)], TrieResult::NoMatch),
    (&TRAILS, &[Step::Number(0x11_0000)], TrieResult::NoMatch),
    (&TRAILS, &[Step::Number(0x12_0000)], TrieResult::NoMatch),
    (&TRAILS, &[Step::Number(0xFFFF_FFFF)], TrieResult::NoMatch),
    (&ZERO, &[Step::Number(0x11_0000)], TrieResult::NoMatch),
    (&ZERO, &[Step::Number(0x12_0000)], TrieResult::NoMatch),
    (&ZERO, &[Step::Number(0xFFFF_FFFF)], TrieResult::NoMatch),
];

/// The units of a trie of an unpaired lead surrogate with the value 5.
const LONE: [u16; 3] = [0x30, 0xD800, 0x8005];

/// The units of a trie of "a" with a truncated value.
const CUT: [u16; 3] = [0x30, 0x61, 0xFFFF];

/// The units of a trie of two trail surrogates with the value 1.
const TRAILS: [u16; 4] = [0x31, 0xDC00, 0xDC00, 0x8001];

/// The units of a trie of the unit 0 with the value 1.
const ZERO: [u16; 3] = [0x30, 0, 0x8001];

/// Expects a cursor and an iterator to return this result after these steps, without an allocation.
fn expect_told_after(units: &[u16], steps: &[Step], want: TrieResult) {
    let Some(trie) = some_trie(units) else {
        return;
    };
    say("call");
    let found = [told_by_cursor(&trie, steps), told_by_iterator(&trie, steps)];
    expect_done((units, found), (units, [Some(want); 2]), "steps");
}

/// Calls: `Char16Trie::cursor`, `Char16Trie::iter`, `Char16TrieCursor::new`,
/// `Char16TrieCursor::resume`, `Char16TrieCursor::place`, `Char16TrieCursor::step`,
/// `Char16TrieCursor::step16`, `Char16TrieCursor::step32`, `Char16TrieCursor::write_str`,
/// `Char16TrieCursor::value`, `Char16TrieCursor::is_empty`, `Char16TrieIterator::new`,
/// `Char16TrieIterator::next`, `Char16TrieIterator::next16`, `Char16TrieIterator::next32`.
#[test]
fn steps_quiet() {
    none_asked(|| {
        for (units, steps, want) in ROWS.iter() {
            expect_told_after(units, steps, *want);
        }
    });
}

/// Positions, and the expected result at each. The first three are positions in the trie, one of
/// them within a linear match; the others are not.
static PLACES: [(usize, u16, TrieResult); 6] = [
    (0, 0, TrieResult::NoValue),
    (1, 2, TrieResult::NoValue),
    (3, 0, TrieResult::FinalValue(3)),
    (4, 0, TrieResult::NoMatch),
    (0, 257, TrieResult::NoMatch),
    (usize::MAX, 0, TrieResult::NoMatch),
];

/// Expects the result at each of the positions.
fn expect_places(units: ZeroSlice<'_, u16>) {
    for (position, left, want) in PLACES.iter() {
        let (position, left) = (*position, *left);
        let cursor = Char16TrieCursor::resume(units, CursorPlace { position, left });
        let want = (position, left, *want);
        expect_same((position, left, result_at(&cursor)), want, "a place");
    }
}

/// Calls: `Char16TrieCursor::resume`, `Char16TrieCursor::value`, `Char16TrieCursor::is_empty`.
#[test]
fn places_quiet() {
    none_asked(|| {
        let Some(trie) = some_trie(&AB) else {
            return;
        };
        say("call");
        expect_places(units_of(&trie));
        say("done");
    });
}

// Functions of unit tries that may allocate, and listings that do not.

/// Returns true if a clone equals the trie.
fn is_cloned(trie: &Char16Trie<'_>) -> Result<bool, MemoryError> {
    let cloned = trie.try_clone()?;
    Ok(are_same(trie, &cloned))
}

/// Returns the number of different first units of keys.
fn count_of_units(trie: &Char16Trie<'_>) -> Result<usize, MemoryError> {
    let units = cursor_of(trie).try_next_units()?;
    Ok(units.len())
}

/// Expects the results for a trie of six entries of one unit each, or says `refused` if an
/// allocation failed.
fn ask_trie(trie: &Char16Trie<'_>) {
    say("call");
    let cloned = is_cloned(trie);
    expect_answer(cloned, true, "an equal trie");
    say("call");
    let is_one = is_trie(trie);
    expect_answer(is_one, true, "a trie");
    say("call");
    let count = count_of(trie);
    expect_answer(count, Some(6), "entries");
    say("call");
    let count = count_of_units(trie);
    expect_answer(count, 6, "the units");
    say("call");
    let value = cursor_of(trie).try_unique_value();
    expect_answer(value, None, "the one value");
}

/// Calls: `Char16Trie::try_clone`, `Char16Trie::try_is_trie`, `Char16Trie::try_count_entries`,
/// `Char16TrieCursor::try_next_units`, `Char16TrieCursor::try_unique_value`.
#[test]
fn answers_refused() {
    each_refused(|| {
        if let Some(trie) = some_trie(&SIX) {
            ask_trie(&trie);
        }
    });
}

/// The units of tries, and the value of the last entry. In the second one, a key ends with a lead
/// surrogate, and another key continues with its trail.
static TRIES: [(&[u16], i32); 2] = [(&SIX, 6), (&LEAD_PAIR, 2)];

/// Returns the value of the last entry, of at most 99.
fn last_value(items: &mut Iter2<'_>) -> Result<Option<i32>, MemoryError> {
    let mut last = None;
    for _ in 0..99 {
        let Some((_, value)) = next_item(items)? else {
            return Ok(last);
        };
        last = Some(value);
    }
    Ok(last)
}

/// Expects the last entry of these units to have this value. After a failed allocation, no item
/// follows.
fn ask_items(units: &[u16], want: i32) {
    let Some(trie) = some_trie(units) else {
        return;
    };
    let mut items = items_of(&trie);
    say("call");
    let last = last_value(&mut items);
    expect_answer(last, Some(want), "the last value");
    expect(is_over(&mut items), "no item");
}

/// Calls: `Iter2::next`.
#[test]
fn iter2_refused() {
    each_refused(|| {
        for (units, last) in TRIES.iter() {
            ask_items(units, *last);
        }
    });
}

/// Returns the value of the last entry in a listing, of at most 99.
fn last_listed(entries: &mut Entries<'_>) -> Result<i32, MemoryError> {
    let mut last = 0;
    for _ in 0..99 {
        if !advanced(entries)? {
            return Ok(last);
        }
        last = entries.value();
    }
    Ok(last)
}

/// Expects the last entry of a listing with one buffer to have this value. After a failed
/// allocation, no entry is left or returned.
fn ask_entries(units: &[u16], want: i32) {
    let Some(trie) = some_trie(units) else {
        return;
    };
    let mut entries = entries_of(&trie);
    say("call");
    let last = last_listed(&mut entries);
    expect_answer(last, want, "the last value");
    let is_left = advanced(&mut entries).ok();
    expect_same(
        (is_left, told(&entries)),
        (Some(false), ("", 0)),
        "no entry",
    );
}

/// Calls: `Entries::try_advance`.
#[test]
fn entries_refused() {
    each_refused(|| {
        for (units, last) in TRIES.iter() {
            ask_entries(units, *last);
        }
    });
}

/// Returns what listings return before their first entry: the length of the key in a listing of the
/// trie, and the value in a listing from a cursor at the root.
fn told_at_first(trie: &Char16Trie<'_>) -> (usize, i32) {
    let _ = items_of(trie);
    let entries = entries_of(trie);
    let completions = entries_from(&cursor_of(trie));
    (entries.key().len(), completions.value())
}

/// A trie that borrows its units does not allocate, and neither does a listing before its first
/// entry.
///
/// Calls: `Char16Trie::new`, `Char16Trie::try_iter2`, `Char16Trie::entries`,
/// `Char16TrieCursor::entries`, `Entries::key`, `Entries::value`.
#[test]
fn listings_quiet() {
    none_asked(|| {
        let Some(trie) = some_trie(&SIX) else {
            return;
        };
        say("call");
        let lent = Char16Trie::new(units_of(&trie).as_zerovec());
        let told = told_at_first(&lent);
        expect_done(told, (0, 0), "told");
    });
}

/// Expects the last value after the first entry to be 6, without an allocation.
fn ask_after_first(entries: &mut Entries<'_>) {
    let Ok(first) = advanced(entries) else {
        return;
    };
    say("call");
    let last = last_listed(entries).ok();
    expect_done((first, last), (true, Some(6)), "the values");
}

/// After the first of six keys of one unit, the buffers have capacity for the others.
///
/// Calls: `Entries::try_advance`.
#[test]
fn entries_of_one_length_quiet() {
    none_asked(|| {
        if let Some(trie) = some_trie(&SIX) {
            ask_after_first(&mut entries_of(&trie));
        }
    });
}
