//! Sets of code points, sets of strings, and values along texts.

use bekstaudi::codepointinvlist::{
    CodePointInversionList, CodePointInversionListBuilder, InvalidSetError, RangeError,
    TryRangeError,
};
use bekstaudi::codepointinvliststringlist::{
    CodePointInversionListAndStringList, InvalidStringList,
};
use bekstaudi::codepointtrie::text::{Found, find_value, values_of_utf8};
use bekstaudi::codepointtrie::{CodePointTrie, CodePointTrieBuilder, TrieType};
use std::ops::Range;

// Sets of code points and their builder, with the examples of UnicodeSet and of the Rust crate, and
// lists and ranges that are rejected.

/// Returns the set with these boundaries.
pub fn set_of(ends: &[u32]) -> CodePointInversionList<'static> {
    CodePointInversionList::try_from_u32_inversion_list_slice(ends).expect("no set")
}

/// A change of a builder's set.
type Change = fn(&mut CodePointInversionListBuilder);

/// The boundaries of a set, and a list of changes, each with the boundaries of the set after it.
type Turns = (&'static [u32], &'static [(Change, &'static [u32])]);

/// Additions above the end of the code space are ignored. In all other methods, ranges are cut off
/// at that end.
static IN_TURN: [Turns; 14] = [
    // Additions above the end of the code space.
    (
        &[0x41, 0x5B],
        &[
            (|it| it.add32(0x11_0000), &[0x41, 0x5B]),
            (|it| it.add_range32(0x50..=0x11_0000), &[0x41, 0x5B]),
            (|it| it.add_range32(0..=u32::MAX), &[0x41, 0x5B]),
            (|it| it.add_range32(..), &[0, 0x11_0000]),
        ],
    ),
    (
        &[],
        &[
            (|it| it.add_range32(0..=u32::MAX), &[]),
            (|it| it.add_range32(..), &[0, 0x11_0000]),
        ],
    ),
    // Changes by an empty range, and above the end of the code space.
    (
        &[0xA, 0x14],
        &[
            (|it| it.complement_range32(5..5), &[0xA, 0x14]),
            (|it| it.complement32(0x11_0000), &[0xA, 0x14]),
            (|it| it.remove32(u32::MAX), &[0xA, 0x14]),
        ],
    ),
    (
        &[0x41, 0x5B],
        &[
            (|it| it.complement_range32(5..5), &[0x41, 0x5B]),
            (|it| it.complement32(0x11_0000), &[0x41, 0x5B]),
            (|it| it.remove32(u32::MAX), &[0x41, 0x5B]),
        ],
    ),
    // Removals of ranges that go beyond the end.
    (
        &[0x41, 0x5B],
        &[
            (|it| it.remove_range32(0x50..=u32::MAX), &[0x41, 0x50]),
            (|it| it.remove_range32(0..=u32::MAX), &[]),
            (
                |it| it.complement_range32(0x10_FFFE..=u32::MAX),
                &[0x10_FFFE, 0x11_0000],
            ),
        ],
    ),
    (
        &[0x41, 0x5B],
        &[(|it| it.remove_range32(0..=u32::MAX), &[])],
    ),
    // Retained numbers.
    (
        &[0x41, 0x5B],
        &[
            (|it| it.retain_range32(0x50..=u32::MAX), &[0x50, 0x5B]),
            (|it| it.retain32(0x51), &[0x51, 0x52]),
            (|it| it.retain32(u32::MAX), &[]),
        ],
    ),
    (&[0x41, 0x5B], &[(|it| it.retain32(u32::MAX), &[])]),
    // Retained ranges.
    (
        &[0x41, 0x5A],
        &[
            (|it| it.retain_range('C'..'F'), &[0x43, 0x46]),
            (|it| it.retain_char('D'), &[0x44, 0x45]),
            (|it| it.retain_range32(Range { start: 9, end: 3 }), &[]),
        ],
    ),
    (
        &[0x41, 0x46],
        &[(|it| it.retain_range32(Range { start: 9, end: 3 }), &[])],
    ),
    // Added and removed characters.
    (
        &[],
        &[
            (|it| it.add_char('A'), &[0x41, 0x42]),
            (|it| it.add32(0x43), &[0x41, 0x42, 0x43, 0x44]),
            (
                |it| it.add_range('E'..='G'),
                &[0x41, 0x42, 0x43, 0x44, 0x45, 0x48],
            ),
        ],
    ),
    (
        &[0x41, 0x42, 0x43, 0x44, 0x45, 0x5B],
        &[
            (|it| it.remove_char('C'), &[0x41, 0x42, 0x45, 0x5B]),
            (
                |it| it.remove32(0x46),
                &[0x41, 0x42, 0x45, 0x46, 0x47, 0x5B],
            ),
            (
                |it| it.remove_range('H'..),
                &[0x41, 0x42, 0x45, 0x46, 0x47, 0x48],
            ),
        ],
    ),
    // Complements.
    (
        &[0x41, 0x42, 0x45, 0x46, 0x47, 0x48],
        &[
            (|it| it.complement_char('A'), &[0x45, 0x46, 0x47, 0x48]),
            (|it| it.complement32(0x44), &[0x44, 0x46, 0x47, 0x48]),
            (
                |it| it.complement_range('E'..'G'),
                &[0x44, 0x45, 0x46, 0x48],
            ),
            (
                |it| it.complement(),
                &[0, 0x44, 0x45, 0x46, 0x48, 0x11_0000],
            ),
        ],
    ),
    (
        &[0xA, 0x14, 0x28, 0x32],
        &[(|it| it.complement(), &[0, 0xA, 0x14, 0x28, 0x32, 0x11_0000])],
    ),
];

#[test]
fn changes_one_after_another() {
    for (first, changes) in &IN_TURN {
        let mut builder = CodePointInversionListBuilder::new();
        builder.add_set(&set_of(first));
        for (place, (change, ends)) in changes.iter().enumerate() {
            change(&mut builder);
            let found = builder.clone().build().get_inversion_list_vec();
            assert_eq!(found, *ends, "{first:X?}, change {place}");
        }
    }
}

/// Invalid lists, and the numbers that their errors contain.
static INVALID: [(&[u32], &[u32]); 4] = [
    (&[1, 2, 2, 3], &[1, 2, 2, 3]),
    (&[0x41, 0x100_0000], &[0x41, 0xFF_FFFF]),
    (&[0x41], &[0x41]),
    (&[0x5B, 0x41], &[0x5B, 0x41]),
];

#[test]
fn invalid_lists() {
    for (ends, shown) in &INVALID {
        let made = CodePointInversionList::try_from_u32_inversion_list_slice(ends);
        let Err(InvalidSetError(points)) = made else {
            panic!("{ends:X?} is a set");
        };
        let points: Vec<u32> = points.into_iter().map(u32::from).collect();
        assert_eq!(points, *shown, "{ends:X?}");
    }
}

#[test]
fn empty_and_reversed_ranges() {
    let reversed = Range {
        start: 'B',
        end: 'A',
    };
    let rows = [
        (
            CodePointInversionList::try_from_range('A'..'A'),
            RangeError(65, 65),
        ),
        (
            CodePointInversionList::try_from_range(reversed),
            RangeError(66, 65),
        ),
        (
            CodePointInversionList::try_from_range(..'\0'),
            RangeError(0, 0),
        ),
    ];
    for (made, want) in rows {
        assert_eq!(made, Err(TryRangeError::Invalid(want)));
    }
}

// Sets of code points and strings: lists of strings that are rejected, and members.

/// Returns the set of these code points and strings, or the error.
fn set_or_fault<'data>(
    points: CodePointInversionList<'data>,
    texts: &[&str],
) -> Result<CodePointInversionListAndStringList<'data>, InvalidStringList> {
    let strings: Vec<String> = texts.iter().map(ToString::to_string).collect();
    CodePointInversionListAndStringList::try_from(points, strings)
}

/// Invalid lists of strings, and the texts of the errors.
static REFUSED: [(&[&str], &str); 5] = [
    (&["ab", "é"], "Invalid string length for string: é"),
    (&["abc", "abc"], "String list has duplicate: abc"),
    (
        &["ab", "a"],
        "Strings in string list not in sorted order: (ab, a)",
    ),
    (
        &["xyz", "abc"],
        "Strings in string list not in sorted order: (xyz, abc)",
    ),
    (&["a", "a"], "Invalid string length for string: a"),
];

#[test]
fn lists_of_strings() {
    for (texts, want) in &REFUSED {
        let fault = set_or_fault(CodePointInversionList::bmp(), texts).expect_err("a set");
        assert_eq!(fault.to_string(), *want);
    }
}

/// A set of the last code points of some ranges, and of strings that name them.
#[test]
fn members_counted() {
    let ends = [0, 1, 0x7F, 0x80, 0xFFFF, 0x1_0000, 0x10_FFFF, 0x11_0000];
    let texts = ["ascii_max", "bmp_max", "unicode_max", "zero"];
    let set = set_or_fault(set_of(&ends), &texts).expect("no set");
    let found = (set.size(), set.code_points().size(), set.strings().len());
    assert_eq!(found, (8, 4, 4));
}

#[test]
fn shown_for_debugging() {
    let set = set_or_fault(CodePointInversionList::all(), &["ab"]).expect("no set");
    let shown = format!("{set:?}");
    assert!(shown.contains("str_list: [\"ab\"]"), "{shown}");
}

// The values of the characters of a text.

/// The value of each code point from 0x10000 on.
const HIGH: u8 = 200;

/// The value of everything that is not a code point.
const ERROR: u8 = 255;

/// Returns a trie in which each code point below 0x10000 has its last six bits as its value.
fn six_bits() -> CodePointTrie<'static, u8> {
    let mut builder = CodePointTrieBuilder::new(HIGH, ERROR, TrieType::Fast);
    for c in 0..0x10000u32 {
        builder.set_value(c, (c & 0x3F) as u8);
    }
    builder.build()
}

/// The search also returns the value it found.
#[test]
fn found_value() {
    let found = find_value(&six_bits(), "é\u{1F600}\u{1F601}", |value| value == HIGH);
    let want = Found {
        offset: 2,
        character: '\u{1F600}',
        value: HIGH,
    };
    assert_eq!(found, Some(want));
}

/// Bytes, and the characters they become, with their values: the last and the first character of
/// each length, a U+FFFD in the text, and one for an ill-formed sequence.
static VALUES: [(&[u8], &[(char, u8)]); 5] = [
    (b"", &[]),
    (b"\x7F\xC2\x80", &[('\x7F', 0x3F), ('\u{80}', 0)]),
    (
        b"\xDF\xBF\xE0\xA0\x80",
        &[('\u{7FF}', 0x3F), ('\u{800}', 0)],
    ),
    (
        b"\xEF\xBF\xBF\xF0\x90\x80\x80\xF4\x8F\xBF\xBF",
        &[
            ('\u{FFFF}', 0x3F),
            ('\u{10000}', HIGH),
            ('\u{10FFFF}', HIGH),
        ],
    ),
    (
        b"\xEF\xBF\xBD\xEF\xBF\x41",
        &[('\u{FFFD}', 0x3D), ('\u{FFFD}', ERROR), ('A', 1)],
    ),
];

/// Each character has its value, and each ill-formed sequence has the error value.
#[test]
fn values() {
    let trie = six_bits();
    for (bytes, want) in VALUES {
        let found: Vec<_> = values_of_utf8(&trie, bytes).collect();
        assert_eq!(found, want, "{bytes:X?}");
    }
}
