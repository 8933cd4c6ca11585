//! How all tests compare, and how they make sets of code points.

use crate::icu_invlist::codepointinvlist::{CodePointInversionList, SetError, TryRangeError};
use crate::icu_trie::cptrie::CodePointTrie;
use crate::icu_zerovec::{MemoryError, PotentialCodePoint, ZeroVec};
use crate::refusals::say;
use crate::support::prelude::*;
use core::fmt::Debug;
use core::hash::{Hash, Hasher};
use core::ops::RangeInclusive;
use std::hash::DefaultHasher;

// How all tests compare.

/// Panics if `holds` is false.
pub fn expect(holds: bool, what: &'static str) {
    assert!(holds, "{what}");
}

/// Expects `found` to equal `want`.
pub fn expect_same<T: Debug + PartialEq>(found: T, want: T, what: &str) {
    assert_eq!(found, want, "{what}");
}

/// Returns the value of a result. Panics if it is an error.
pub fn given<T, E>(answer: Result<T, E>) -> T {
    match answer {
        Ok(found) => found,
        Err(_) => panic!("an error"),
    }
}

/// Expects the text to be `want`.
pub fn expect_string(text: String, want: &str) {
    expect_same(text.as_str(), want, "the text");
}

/// Says `done` for the call since the line `call`, and `refused` if an allocation failed in it.
pub fn tell(refused: bool) {
    say("done");
    if refused {
        say("refused");
    }
}

/// Says `done` for the calls since the line `call`, and expects their result to be `want`.
pub fn expect_done<T: Copy + Debug + PartialEq>(found: T, want: T, what: &str) {
    say("done");
    expect_same(found, want, what);
}

/// Says that an allocation failed.
pub fn say_refused(error: MemoryError) {
    expect_same(error, MemoryError, "the error");
    say("refused");
}

/// Says `done` for the call since the line `call`. Expects its result to be `want`, or says
/// `refused` if an allocation failed.
pub fn expect_answer<T: Copy + Debug + PartialEq>(
    answer: Result<T, MemoryError>,
    want: T,
    what: &str,
) {
    say("done");
    match answer {
        Ok(found) => expect_same(found, want, what),
        Err(error) => say_refused(error),
    }
}

/// Returns the hash of a value by the standard hasher.
pub fn hash_of<T: Hash>(x: &T) -> u64 {
    let mut state = DefaultHasher::new();
    x.hash(&mut state);
    state.finish()
}

// How tests make and query sets of code points.

/// Returns the set with these boundaries, or the error.
pub fn set_or_fault(ends: &[u32]) -> Result<CodePointInversionList<'static>, SetError> {
    CodePointInversionList::try_from_u32_inversion_list_slice_fallible(ends)
}

/// Returns the set with these boundaries, which must be valid, or `None` if an allocation fails.
pub fn set_of(ends: &[u32]) -> Option<CodePointInversionList<'static>> {
    set_or_fault(ends).ok()
}

/// Returns the set of all code points.
pub fn all() -> CodePointInversionList<'static> {
    CodePointInversionList::all()
}

/// Returns the set of the code points of the Basic Multilingual Plane.
pub fn basic() -> CodePointInversionList<'static> {
    CodePointInversionList::bmp()
}

/// Returns the set of a range of characters, or the error.
pub fn set_of_range<R: core::ops::RangeBounds<char>>(
    range: R,
) -> Result<CodePointInversionList<'static>, TryRangeError> {
    CodePointInversionList::try_from_range(range)
}

/// Returns the list that borrows these bytes.
pub fn list_of<'a>(bytes: &'a [u8]) -> ZeroVec<'a, PotentialCodePoint> {
    match ZeroVec::<PotentialCodePoint>::parse_bytes(bytes) {
        Ok(list) => list,
        Err(_) => panic!("no list"),
    }
}

/// Returns the set with this list, or the error.
pub fn set_over<'a>(
    list: ZeroVec<'a, PotentialCodePoint>,
) -> Result<CodePointInversionList<'a>, SetError> {
    CodePointInversionList::try_from_inversion_list_fallible(list)
}

/// Returns the boundaries of the set, or `None` if an allocation fails.
pub fn list_of_ends(set: &CodePointInversionList<'_>) -> Option<Vec<u32>> {
    set.try_get_inversion_list_vec().ok()
}

/// Expects the boundaries to be `want`.
pub fn expect_ends(ends: Vec<u32>, want: &[u32]) {
    expect_same(ends.as_slice(), want, "the ends");
}

/// Expects the set to have these boundaries. Checks nothing if an allocation fails.
pub fn expect_listed(set: &CodePointInversionList<'_>, want: &[u32]) {
    if let Some(ends) = list_of_ends(set) {
        expect_ends(ends, want);
    }
}

/// Returns the number of code points and the number of ranges.
pub fn counts_of(set: &CodePointInversionList<'_>) -> [usize; 2] {
    [set.size(), set.get_range_count()]
}

/// Returns the first and the last number of a range.
pub fn ends_of(range: Option<RangeInclusive<u32>>) -> Option<(u32, u32)> {
    let range = range?;
    Some((*range.start(), *range.end()))
}

// Helpers for the tests of the serialized forms.

/// The parts joined to one text, or `None` if an allocation fails.
pub fn joined(parts: &[&str]) -> Option<String> {
    let mut text = String::new();
    for part in parts {
        text.try_push_str(part).ok()?;
    }
    Some(text)
}

/// Checks that the trie has this value at each of these numbers.
pub fn expect_answers(trie: CodePointTrie<'_, u8>, answers: &[(u32, u8)]) {
    for (c, want) in answers {
        expect_same((*c, trie.get32(*c)), (*c, *want), "an answer");
    }
}
