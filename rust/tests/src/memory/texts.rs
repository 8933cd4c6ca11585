//! Values of tries along texts: examples from outside, and each function allocates nothing.

use crate::icu_trie::cptrie::CodePointTrie;
use crate::icu_trie::header::{CodePointTrieHeader, TrieType};
use crate::icu_trie_text::text::{
    copy_values, find_value, span_of_values, value_indices_of, values_of, values_of_utf8,
    values_of_utf16,
};
use crate::memory::support::expect_same;
use crate::memory::tries::trie_of;
use crate::refusals::{none_asked, say};

// The trie for the tests along texts.

/// The value of each surrogate.
pub const SURROGATE: u8 = 100;

/// The value of each code point from 0x10000 on.
pub const HIGH: u8 = 200;

/// The value of everything that is not a code point.
pub const ERROR: u8 = 255;

const HEADER: CodePointTrieHeader = CodePointTrieHeader {
    high_start: 0x10000,
    shifted12_high_start: 0x10,
    index3_null_offset: 0x7FFF,
    data_null_offset: 0xFFFFF,
    null_value: 0,
    trie_type: TrieType::Fast,
};

/// The bytes of the index and of the data of a trie. Each code point below 0x10000, except the
/// surrogates, has its last six bits as its value.
pub fn six_bits() -> ([u8; 2048], [u8; 130]) {
    let mut index = [0; 2048];
    for block in 0xD800 / 64..0xE000 / 64 {
        index[2 * block] = 64;
    }
    let mut values = [SURROGATE; 130];
    for k in 0..64 {
        values[k] = k as u8;
    }
    values[128] = HIGH;
    values[129] = ERROR;
    (index, values)
}

/// The same, but the data start with the values of ASCII.
pub fn ascii_in_place() -> ([u8; 2048], [u8; 194]) {
    let mut index = [0; 2048];
    index[2] = 64;
    for block in 0xD800 / 64..0xE000 / 64 {
        index[2 * block] = 128;
    }
    let mut values = [SURROGATE; 194];
    for k in 0..64 {
        values[k] = k as u8;
        values[k + 64] = k as u8;
    }
    values[192] = HIGH;
    values[193] = ERROR;
    (index, values)
}

/// The trie of these bytes.
pub fn trie_of_bits<'a>((index, values): &'a ([u8; 2048], [u8; 130])) -> CodePointTrie<'a, u8> {
    trie_of(HEADER, index, values)
}

/// The trie of these bytes, with the values of ASCII in place.
pub fn trie_in_place<'a>((index, values): &'a ([u8; 2048], [u8; 194])) -> CodePointTrie<'a, u8> {
    trie_of(HEADER, index, values)
}

// The value of each character of a text, its position, and the search for a character by its
// value.

/// Characters of one to four bytes, and their values, which are the last six bits of their code
/// points: U+0041, U+00E9, U+20AC, U+FFFD, U+1F600.
static TEXT: &str = "Aé€\u{FFFD}\u{1F600}";

static VALUES: [(char, u8); 5] = [
    ('A', 0x01),
    ('é', 0x29),
    ('€', 0x2C),
    ('\u{FFFD}', 0x3D),
    ('\u{1F600}', HIGH),
];

static INDICES: [(usize, char, u8); 5] = [
    (0, 'A', 0x01),
    (1, 'é', 0x29),
    (3, '€', 0x2C),
    (6, '\u{FFFD}', 0x3D),
    (9, '\u{1F600}', HIGH),
];

/// Whether the characters of the text have these values and these positions, and whether an empty
/// text has none.
fn have_values(trie: &CodePointTrie<'_, u8>) -> [bool; 3] {
    [
        values_of(trie, TEXT).eq(VALUES.iter().copied()),
        value_indices_of(trie, TEXT).eq(INDICES.iter().copied()),
        values_of(trie, "").next().is_none(),
    ]
}

/// Calls: `text::values_of`, `text::value_indices_of`, `ValuesOf::next`, `ValueIndicesOf::next`.
#[test]
fn values_quiet() {
    none_asked(|| {
        let bits = six_bits();
        let trie = trie_of_bits(&bits);
        say("call");
        let found = have_values(&trie);
        say("done");
        expect_same(found, [true; 3], "values, places, and none");
    });
}

/// A text, the position and character of the first value 1 in it, and the number of bytes before
/// it.
static ONES: [(&str, Option<(usize, char)>, usize); 5] = [
    ("", None, 0),
    ("é€", None, 5),
    ("é€A", Some((5, 'A')), 5),
    ("\u{1F600}aAB", Some((5, 'A')), 5),
    ("\u{201}é", Some((0, '\u{201}')), 0),
];

/// True if the value is 1.
fn is_one(value: u8) -> bool {
    value == 1
}

/// True if the value is not 1.
fn is_another(value: u8) -> bool {
    value != 1
}

/// The position of the first character with the value 1, and the number of bytes before it.
fn first_one(trie: &CodePointTrie<'_, u8>, text: &str) -> (Option<(usize, char)>, usize) {
    let found = match find_value(trie, text, is_one) {
        Some(found) => Some((found.offset, found.character)),
        None => None,
    };
    (found, span_of_values(trie, text, is_another))
}

/// Calls: `text::find_value`, `text::span_of_values`.
#[test]
fn searches_quiet() {
    none_asked(|| {
        let bits = six_bits();
        let trie = trie_of_bits(&bits);
        say("call");
        for (text, want, before) in ONES.iter() {
            expect_same(first_one(&trie, text), (*want, *before), text);
        }
        say("done");
    });
}

// The value of each code point of 16-bit units.

/// Units, and their code points with their values. Code points are as in `U16_NEXT` of ICU:
/// surrogate pairs are joined, and each unpaired surrogate is a code point on its own.
static UNIT_ROWS: [(&[u16], &[(u32, u8)]); 8] = [
    (&[], &[]),
    (&[0x41, 0xFFFF], &[(0x41, 1), (0xFFFF, 0x3F)]),
    (&[0xD83D, 0xDE00], &[(0x1F600, HIGH)]),
    (
        &[0xD800, 0xDC00, 0xDBFF, 0xDFFF],
        &[(0x10000, HIGH), (0x10FFFF, HIGH)],
    ),
    (&[0xD83D], &[(0xD83D, SURROGATE)]),
    (&[0xD83D, 0x41], &[(0xD83D, SURROGATE), (0x41, 1)]),
    (
        &[0xDE00, 0xD83D, 0xD83D, 0xDE00],
        &[(0xDE00, SURROGATE), (0xD83D, SURROGATE), (0x1F600, HIGH)],
    ),
    (
        &[0xD7FF, 0xDBFF, 0xE000],
        &[(0xD7FF, 0x3F), (0xDBFF, SURROGATE), (0xE000, 0)],
    ),
];

/// True if the units have these code points and these values.
fn have_points(trie: &CodePointTrie<'_, u8>, units: &[u16], want: &[(u32, u8)]) -> bool {
    values_of_utf16(trie, units).eq(want.iter().copied())
}

/// Calls: `text::values_of_utf16`, `ValuesOfUtf16::next`.
#[test]
fn code_points_quiet() {
    none_asked(|| {
        let bits = six_bits();
        let trie = trie_of_bits(&bits);
        say("call");
        for (units, want) in UNIT_ROWS.iter() {
            let right = have_points(&trie, units, want);
            expect_same((*units, right), (*units, true), "the code points");
        }
        say("done");
    });
}

// The value of each character of bytes that may be ill-formed UTF-8.

/// Bytes, and the characters they become, with one U+FFFD for each maximal subpart of an ill-formed
/// sequence. The first row is from older versions of the Unicode Standard. The next four are tables
/// 3-8 to 3-11 in section 3.9 of version 15. The other rows are our own, most of them truncated
/// sequences.
pub static ILL_FORMED_ROWS: [(&[u8], &str); 12] = [
    (
        b"\x61\xF1\x80\x80\xE1\x80\xC2\x62\x80\x63\x80\xBF\x64",
        "a\u{FFFD}\u{FFFD}\u{FFFD}b\u{FFFD}c\u{FFFD}\u{FFFD}d",
    ),
    (
        b"\xC0\xAF\xE0\x80\xBF\xF0\x81\x82\x41",
        "\u{FFFD}\u{FFFD}\u{FFFD}\u{FFFD}\u{FFFD}\u{FFFD}\u{FFFD}\u{FFFD}A",
    ),
    (
        b"\xED\xA0\x80\xED\xBF\xBF\xED\xAF\x41",
        "\u{FFFD}\u{FFFD}\u{FFFD}\u{FFFD}\u{FFFD}\u{FFFD}\u{FFFD}\u{FFFD}A",
    ),
    (
        b"\xF4\x91\x92\x93\xFF\x41\x80\xBF\x42",
        "\u{FFFD}\u{FFFD}\u{FFFD}\u{FFFD}\u{FFFD}A\u{FFFD}\u{FFFD}B",
    ),
    (
        b"\xE1\x80\xE2\xF0\x91\x92\xF1\xBF\x41",
        "\u{FFFD}\u{FFFD}\u{FFFD}\u{FFFD}A",
    ),
    (b"\xC2", "\u{FFFD}"),
    (b"\xE0\xA0", "\u{FFFD}"),
    (b"\xE0\x9F", "\u{FFFD}\u{FFFD}"),
    (b"\xED\x9F", "\u{FFFD}"),
    (b"\xF0\x90\x80", "\u{FFFD}"),
    (b"\xF4\x8F\xBF", "\u{FFFD}"),
    (b"\xF5\x80\x80\x80", "\u{FFFD}\u{FFFD}\u{FFFD}\u{FFFD}"),
];

/// True if the characters of the items are those of a text.
fn have_characters(trie: &CodePointTrie<'_, u8>, bytes: &[u8], text: &str) -> bool {
    let mut wanted = text.chars();
    for (c, _) in values_of_utf8(trie, bytes) {
        if wanted.next() != Some(c) {
            return false;
        }
    }
    wanted.next().is_none()
}

/// Calls: `text::values_of_utf8`, `ValuesOfUtf8::next`.
#[test]
fn ill_formed_quiet() {
    none_asked(|| {
        let bits = six_bits();
        let trie = trie_of_bits(&bits);
        say("call");
        for (bytes, want) in ILL_FORMED_ROWS.iter() {
            let right = have_characters(&trie, bytes, want);
            expect_same((*bytes, right), (*bytes, true), "the characters");
        }
        say("done");
    });
}

// The values of bytes that may be ill-formed UTF-8, copied to a buffer.

/// The number of bytes of a text, and the index at which its row starts.
const SIZE: usize = 160;

const START: usize = 40;

/// What the buffer has before the call.
const UNCHANGED: u8 = 0xEE;

/// The value of a character in the tests' tries, with U+FFFD for an ill-formed part.
fn value_of(c: char) -> u8 {
    match c {
        '\u{FFFD}' => ERROR,
        '\u{10000}'..='\u{10FFFF}' => HIGH,
        _ => (c as u32 & 0x3F) as u8,
    }
}

/// A text of letters `a`, with these bytes in the middle.
fn text_with(bytes: &[u8]) -> [u8; SIZE] {
    let mut text = [0x61; SIZE];
    for (slot, byte) in text[START..].iter_mut().zip(bytes) {
        *slot = *byte;
    }
    text
}

/// The values of such a text, in which the bytes are these characters.
fn values_with(characters: &str) -> [u8; SIZE] {
    let mut values = [0x21; SIZE];
    for (slot, c) in values[START..].iter_mut().zip(characters.chars()) {
        *slot = value_of(c);
    }
    values
}

/// True if buffers of each length up to the text's get as many of these `count` values as fit, and
/// are unchanged past them.
fn are_copied(trie: &CodePointTrie<'_, u8>, text: &[u8], wanted: &[u8], count: usize) -> bool {
    for room in 0..SIZE + 1 {
        let mut values = [UNCHANGED; SIZE];
        let copied = copy_values(trie, text, &mut values[..room]);
        if copied.values != room.min(count) || (copied.values < room) != (room > count) {
            return false;
        }
        if copied.values == count && copied.bytes != text.len() {
            return false;
        }
        let written = values.iter().take(copied.values);
        if !written.eq(wanted.iter().take(copied.values)) {
            return false;
        }
        if !values
            .iter()
            .skip(copied.values)
            .all(|value| *value == UNCHANGED)
        {
            return false;
        }
    }
    true
}

/// Calls: `text::copy_values`.
#[test]
fn ill_formed_copied_quiet() {
    none_asked(|| {
        let (bits, in_place) = (six_bits(), ascii_in_place());
        let (trie, quick) = (trie_of_bits(&bits), trie_in_place(&in_place));
        say("call");
        for (bytes, characters) in ILL_FORMED_ROWS.iter() {
            let (text, wanted) = (text_with(bytes), values_with(characters));
            let parts = characters.chars().count();
            let count = SIZE.saturating_sub(bytes.len()).saturating_add(parts);
            let right = are_copied(&trie, &text, &wanted, count);
            expect_same((*bytes, right), (*bytes, true), "the values");
            let right = are_copied(&quick, &text, &wanted, count);
            expect_same(
                (*bytes, right),
                (*bytes, true),
                "the values, ASCII in place",
            );
        }
        say("done");
    });
}
