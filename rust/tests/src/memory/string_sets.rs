//! Sets with strings. Expected values are those of the Rust crate and its documentation, or
//! computed by hand.

use crate::icu_frozen_sets::text_sets::FrozenCodePointSetAndStrings;
use crate::icu_text_sets::codepointinvliststringlist::CodePointInversionListAndStringList;
use crate::icu_zerovec::MemoryError;
use crate::memory::support::{all, expect, expect_same, tell};
use crate::refusals::{each_refused, none_asked, say};
use crate::support::prelude::*;

// Sets with strings. Expected values are those of the Rust crate and its documentation, or
// computed by hand.

/// Returns the set of these texts, in any order, or `None` if an allocation fails.
fn gathered(texts: &[&str]) -> Option<CodePointInversionListAndStringList<'static>> {
    CodePointInversionListAndStringList::try_from_iter(texts.iter().copied()).ok()
}

/// Returns the set of "a" and "ab", or `None` if an allocation fails.
pub fn a_and_ab() -> Option<CodePointInversionListAndStringList<'static>> {
    gathered(&["a", "ab"])
}

/// Returns true if the two sets are equal.
fn are_equal(
    a: &CodePointInversionListAndStringList<'_>,
    b: &CodePointInversionListAndStringList<'_>,
) -> bool {
    *a == *b
}

/// Returns the number of members, of code points and of strings.
fn counts_of(set: &CodePointInversionListAndStringList<'_>) -> [usize; 3] {
    [
        set.size(),
        set.code_points().size(),
        set.string_slice().len(),
    ]
}

// Failed allocations, and functions that do not allocate.

/// Expects the set to be "a" and "ab". Checks nothing if making another one fails to
/// allocate.
pub fn expect_a_and_ab(set: &CodePointInversionListAndStringList<'_>) {
    if let Some(want) = a_and_ab() {
        expect(are_equal(set, &want), "as it was");
    }
}

/// Says that the call is done. Expects the set, if it was made, to have a code point and two
/// strings.
pub fn expect_gathered(made: Option<CodePointInversionListAndStringList<'_>>) {
    tell(made.is_none());
    if let Some(set) = made {
        expect_same(counts_of(&set), [3, 1, 2], "members and strings");
    }
}

/// A set is made from texts, which are unchanged.
///
/// Calls: `CodePointInversionListAndStringList::try_from_iter`.
#[test]
fn from_iter_refused() {
    each_refused(|| {
        let texts = ["xyz", "a", "abc"];
        say("call");
        let made = gathered(&texts);
        expect_gathered(made);
        expect_same(texts, ["xyz", "a", "abc"], "as they were");
    });
}

/// Calls: `CodePointInversionListAndStringList::try_clone`.
#[test]
fn try_clone_refused() {
    each_refused(|| {
        let Some(set) = a_and_ab() else {
            return;
        };
        say("call");
        let is_refused = set.try_clone().is_err();
        tell(is_refused);
        expect_a_and_ab(&set);
    });
}

/// Returns a list of one string.
fn strings_of(text: &str) -> Result<Vec<String>, MemoryError> {
    let string = String::from_str(text)?;
    let mut strings = Vec::new();
    strings.try_push(string)?;
    Ok(strings)
}

/// Returns whether all code points and these strings are a set.
fn is_set(strings: Vec<String>) -> bool {
    CodePointInversionListAndStringList::try_from(all(), strings).is_ok()
}

/// Strings, and whether they can be in the list of a set: one of a single character belongs among
/// the code points.
static STRINGS: [(&str, bool); 2] = [("abc", true), ("a", false)];

/// Calls: `CodePointInversionListAndStringList::try_from`.
#[test]
fn try_from_quiet() {
    none_asked(|| {
        for (text, want) in STRINGS.iter() {
            let Ok(strings) = strings_of(text) else {
                return;
            };
            say("call");
            let found = is_set(strings);
            say("done");
            expect_same(found, *want, text);
        }
    });
}

/// Returns whether the set contains the text, and whether it contains the text of its bytes.
fn holds_text(set: &CodePointInversionListAndStringList<'_>, text: &str) -> [bool; 2] {
    [set.contains_str(text), set.contains_utf8(text.as_bytes())]
}

/// Returns whether the set contains the character, and whether it contains its number.
fn holds_points(set: &CodePointInversionListAndStringList<'_>, ch: char, cp: u32) -> [bool; 2] {
    [set.contains(ch), set.contains32(cp)]
}

/// Texts in any order, one of them twice, and one of them a single character.
///
/// Calls: `CodePointInversionListAndStringList::size`,
/// `CodePointInversionListAndStringList::code_points`,
/// `CodePointInversionListAndStringList::string_slice`,
/// `CodePointInversionListAndStringList::has_strings`,
/// `CodePointInversionListAndStringList::contains`,
/// `CodePointInversionListAndStringList::contains32`,
/// `CodePointInversionListAndStringList::contains_str`,
/// `CodePointInversionListAndStringList::contains_utf8`.
#[test]
fn gathered_quiet() {
    none_asked(|| {
        let Some(set) = gathered(&["a", "abc", "xyz", "abc"]) else {
            return;
        };
        say("call");
        let counts = counts_of(&set);
        let points = (set.has_strings(), holds_points(&set, 'a', 0x61));
        let held = [holds_text(&set, "abc"), holds_text(&set, "a")];
        let not_held = [holds_text(&set, "ab"), holds_text(&set, "b")];
        let others = [set.contains_utf8(&[0xFF]), are_equal(&set, &set)];
        say("done");
        expect_same(counts, [3, 1, 2], "size, code points, strings");
        expect_same(points, (true, [true; 2]), "strings, a, its number");
        expect_same(held, [[true; 2]; 2], "abc, a as a text");
        expect_same(not_held, [[false; 2]; 2], "ab, b as a text");
        expect_same(others, [false, true], "no text, equal to itself");
    });
}

// Frozen sets with strings: that they are made and return what the set returns, and failed
// allocations.

/// Returns a set of three letters, the empty string and other strings, one of which has two Han
/// characters. Returns `None` if an allocation fails.
fn words() -> Option<CodePointInversionListAndStringList<'static>> {
    gathered(&["", "Z", "a", "a1", "abc", "z", "漢字"])
}

/// Freezes the set. Returns `None` if an allocation fails.
fn frozen(set: &CodePointInversionListAndStringList<'_>) -> Option<FrozenCodePointSetAndStrings> {
    FrozenCodePointSetAndStrings::try_freeze(set).ok()
}

/// Freezes the set, and drops it. Returns `None` if an allocation fails.
fn frozen_alone(
    set: CodePointInversionListAndStringList<'_>,
) -> Option<FrozenCodePointSetAndStrings> {
    frozen(&set)
}

/// Freezes the set of the words. Returns `None` if an allocation fails.
fn frozen_words() -> Option<FrozenCodePointSetAndStrings> {
    match words() {
        Some(set) => frozen_alone(set),
        None => None,
    }
}

/// Texts, and whether the set of the words contains them.
static TEXTS: [(&str, bool); 9] = [
    ("", true),
    ("a", true),
    ("1", false),
    ("漢", false),
    ("漢字", true),
    ("abc", true),
    ("ab", false),
    ("abcd", false),
    ("\u{10000}", false),
];

/// Calls: `FrozenCodePointSetAndStrings::as_set`, `FrozenCodePointSetAndStrings::contains`,
/// `FrozenCodePointSetAndStrings::contains32`, `FrozenCodePointSetAndStrings::contains_str`.
#[test]
fn frozen_with_strings_quiet() {
    none_asked(|| {
        let Some(frozen) = frozen_words() else {
            return;
        };
        say("call");
        for (text, want) in TEXTS.iter() {
            expect_same(frozen.contains_str(text), *want, text);
        }
        let held = [
            frozen.contains('Z'),
            frozen.contains32(0x7A),
            frozen == frozen,
        ];
        let not_held = [frozen.contains('['), frozen.contains32(0x11_0041)];
        let counts = counts_of(frozen.as_set());
        say("done");
        expect_same(held, [true; 3], "code points, and equal to itself");
        expect_same(not_held, [false; 2], "code points that are not held");
        expect_same(counts, [7, 3, 4], "members");
    });
}

/// Says that the call is done. Expects the frozen set, if it was made, to return the right
/// results.
fn expect_frozen(made: Option<FrozenCodePointSetAndStrings>) {
    tell(made.is_none());
    if let Some(frozen) = made {
        let found = [
            frozen.contains_str("abc"),
            frozen.contains_str("a"),
            frozen.contains('1'),
        ];
        let what = "a string, a letter and a digit";
        expect_same(found, [true, true, false], what);
    }
}

/// The set that was frozen is unchanged.
///
/// Calls: `FrozenCodePointSetAndStrings::try_freeze`.
#[test]
fn freeze_with_strings_refused() {
    each_refused(|| {
        let Some(set) = words() else {
            return;
        };
        say("call");
        let made = frozen(&set);
        expect_frozen(made);
        expect_same(counts_of(&set)[0], 7, "the set that was lent");
    });
}

/// Calls: `FrozenCodePointSetAndStrings::try_clone`.
#[test]
fn try_clone_of_frozen_with_strings_refused() {
    each_refused(|| {
        let Some(frozen) = frozen_words() else {
            return;
        };
        say("call");
        let made = frozen.try_clone();
        expect_frozen(made.ok());
        expect(frozen.contains_str("abc"), "the set that was lent");
    });
}
