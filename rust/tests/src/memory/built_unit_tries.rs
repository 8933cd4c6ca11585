//! Unit tries that are built.

use crate::icu_char16trie::char16trie::Char16Trie;
use crate::icu_char16trie_builder::builder::Char16TrieBuilder;
use crate::icu_char16trie_builder::error::{AddError, BuildError, SortedError};
use crate::memory::dictionaries::{are_same, value_of};
use crate::memory::support::{expect, expect_done, expect_same};
use crate::refusals::{each_refused, none_asked, say};

// How tests build tries.

/// A key and its value.
pub type Entry<'a> = (&'a [u16], i32);

/// Returns a builder without entries.
pub fn new_builder() -> Char16TrieBuilder {
    Char16TrieBuilder::new()
}

/// Adds an entry to a builder, and returns the result.
pub fn add(builder: &mut Char16TrieBuilder, key: &[u16], value: i32) -> Result<(), AddError> {
    builder.add(key, value)
}

/// Returns the trie that a builder builds.
pub fn build(builder: Char16TrieBuilder) -> Result<Char16Trie<'static>, BuildError> {
    builder.try_build()
}

// Functions of builders that may allocate.

/// The number of entries that are added. It is large enough for the map of the entries to grow in
/// each of its ways.
const MANY: u16 = 90;

/// Adds at most `count` keys of one and two units until one fails. Returns how many were added, and
/// the last result.
fn add_keys(builder: &mut Char16TrieBuilder, count: u16) -> (u16, Result<(), AddError>) {
    for k in 0..count {
        let unit = k % 40;
        let added = if k == unit {
            add(builder, &[unit], i32::from(k))
        } else {
            add(builder, &[unit, k], i32::from(k))
        };
        if added.is_err() {
            return (k, added);
        }
    }
    (count, Ok(()))
}

/// Returns a builder with `count` keys, to which no other key was added.
fn with_keys(count: u16) -> Option<Char16TrieBuilder> {
    let mut builder = new_builder();
    let (_, added) = add_keys(&mut builder, count);
    added.ok()?;
    Some(builder)
}

/// Expects both builders to build the same trie. Checks nothing if an allocation fails.
fn expect_same_built(found: Char16TrieBuilder, want: Char16TrieBuilder) {
    if let (Ok(found), Ok(want)) = (build(found), build(want)) {
        let same = are_same(&found, &want);
        expect(same, "the entries before the refused one");
    }
}

/// Expects any error to be that of a failed allocation, and says `refused` for it.
fn expect_memory(refusal: Result<(), AddError>) {
    if let Err(error) = refusal {
        expect_same(error, AddError::Memory, "the error");
        say("refused");
    }
}

/// If adding a key fails, the entries are unchanged: they equal those of a builder to which only
/// the keys before it were added.
///
/// Calls: `Char16TrieBuilder::add`.
#[test]
fn add_refused() {
    each_refused(|| {
        let mut builder = new_builder();
        say("call");
        let (count, refusal) = add_keys(&mut builder, MANY);
        say("done");
        expect_memory(refusal);
        if let Some(want) = with_keys(count) {
            expect_same_built(builder, want);
        }
    });
}

/// Different texts, one of which is a character of two units.
static TEXTS: [&str; 12] = [
    "a",
    "ab",
    "\u{1f600}",
    "b",
    "c",
    "d",
    "e",
    "f",
    "g",
    "h",
    "i",
    "j",
];

/// Adds the texts as keys until one fails. Returns how many were added, and the last result.
fn add_texts(builder: &mut Char16TrieBuilder) -> (u16, Result<(), AddError>) {
    for k in 0..12u16 {
        let added = builder.add_str(TEXTS[usize::from(k)], i32::from(k));
        if added.is_err() {
            return (k, added);
        }
    }
    (12, Ok(()))
}

/// If adding a text fails, the number of entries is unchanged.
///
/// Calls: `Char16TrieBuilder::add_str`.
#[test]
fn add_str_refused() {
    each_refused(|| {
        let mut builder = new_builder();
        say("call");
        let (count, refusal) = add_texts(&mut builder);
        say("done");
        expect_memory(refusal);
        let what = "the entries before the refused one";
        expect_same(builder.len(), usize::from(count), what);
    });
}

/// Returns the value of the last key in the trie that the builder builds.
fn last_built(builder: Char16TrieBuilder) -> Result<Option<i32>, BuildError> {
    match build(builder) {
        Ok(trie) => Ok(value_of(&trie, &[9, 89])),
        Err(error) => Err(error),
    }
}

/// Expects the value of the last key, or says `refused` if an allocation failed.
fn expect_built(found: Result<Option<i32>, BuildError>) {
    if found == Err(BuildError::Memory) {
        say("refused");
    } else {
        expect_same(found, Ok(Some(89)), "the last value");
    }
}

/// Calls: `Char16TrieBuilder::try_build`.
#[test]
fn build_refused() {
    each_refused(|| {
        let Some(builder) = with_keys(MANY) else {
            return;
        };
        say("call");
        let found = last_built(builder);
        say("done");
        expect_built(found);
    });
}

/// A new builder does not allocate, and neither does counting its entries.
///
/// Calls: `Char16TrieBuilder::new`, `Char16TrieBuilder::len`, `Char16TrieBuilder::is_empty`.
#[test]
fn new_quiet() {
    none_asked(|| {
        say("call");
        let builder = new_builder();
        let found = (builder.len(), builder.is_empty());
        expect_done(found, (0, true), "no entries");
    });
}

// Tries that are built directly from entries in unit order.

/// Enough entries for a branch to be split, with longer keys.
const MANY_SORTED: [Entry<'static>; 12] = [
    (&[1], 1),
    (&[1, 1], 2),
    (&[2, 1], 3),
    (&[3, 1, 1], 4),
    (&[4], 5),
    (&[5], 6),
    (&[5, 1, 1], 7),
    (&[6], 8),
    (&[7], 9),
    (&[8], 10),
    (&[9, 1], 11),
    (&[9, 2], 12),
];

/// Builds a trie of these entries in unit order.
fn build_sorted(entries: &[Entry<'_>]) -> Result<Char16Trie<'static>, SortedError> {
    Char16TrieBuilder::build_sorted(entries)
}

/// Builds a trie, and returns the value of the last entry.
fn last_value() -> Result<Option<i32>, SortedError> {
    match build_sorted(&MANY_SORTED) {
        Ok(trie) => Ok(value_of(&trie, &[9, 2])),
        Err(error) => Err(error),
    }
}

/// Calls: `Char16TrieBuilder::build_sorted`.
#[test]
fn build_sorted_refused() {
    each_refused(|| {
        say("call");
        let found = last_value();
        say("done");
        if found == Err(SortedError::Memory) {
            say("refused");
        } else {
            expect_same(found, Ok(Some(12)), "the last value");
        }
    });
}

/// Entries that are not in order are rejected without an allocation.
///
/// Calls: `Char16TrieBuilder::build_sorted`.
#[test]
fn build_sorted_quiet() {
    none_asked(|| {
        say("call");
        let found = build_sorted(&[(&[2], 1), (&[1], 2)]).err();
        let want = Some(SortedError::NotAscending(1));
        expect_done(found, want, "why it is refused");
    });
}
