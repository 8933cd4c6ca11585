//! Frozen sets: that they are made and return what the set returns, and failed allocations.

use crate::icu_frozen_sets::frozen::FrozenCodePointSet;
use crate::icu_frozen_sets::spans::Spans;
use crate::icu_frozen_sets::view::FrozenView;
use crate::icu_invlist::codepointinvlist::CodePointInversionList;
use crate::memory::support::{expect, expect_listed, expect_same, set_of, tell};
use crate::refusals::{each_refused, none_asked, say};

/// The ASCII letters.
const LETTERS: [u32; 4] = [0x41, 0x5B, 0x61, 0x7B];

/// Freezes the set. Returns `None` if an allocation fails.
fn frozen(set: &CodePointInversionList<'_>) -> Option<FrozenCodePointSet> {
    FrozenCodePointSet::try_freeze(set).ok()
}

/// Freezes the set, and drops it. Returns `None` if an allocation fails.
fn frozen_alone(set: CodePointInversionList<'_>) -> Option<FrozenCodePointSet> {
    frozen(&set)
}

/// Freezes the set with these boundaries. Returns `None` if an allocation fails.
fn frozen_of(ends: &[u32]) -> Option<FrozenCodePointSet> {
    match set_of(ends) {
        Some(set) => frozen_alone(set),
        None => None,
    }
}

/// A text, and the results of `span` for in the set and outside it, and of `span_back` for the
/// same.
type TextSpans = (&'static str, [usize; 4]);

/// Sets by their boundaries, and texts.
static SPANS: [(&[u32], &[TextSpans]); 4] = [
    (
        &[0xE9, 0xEA],
        &[
            ("ééa", [4, 0, 5, 4]),
            ("aéé", [0, 1, 1, 5]),
            ("", [0, 0, 0, 0]),
        ],
    ),
    (
        &[0x41, 0x44, 0x46, 0x4B],
        &[("XYZABFH", [0, 3, 3, 7]), ("ABCXYZ", [3, 0, 6, 3])],
    ),
    // The ASCII letters and a block of Han.
    (
        &[0x41, 0x5B, 0x61, 0x7B, 0x4E00, 0xA000],
        &[
            ("", [0, 0, 0, 0]),
            ("abcXYZ1", [6, 0, 7, 6]),
            ("1abcXYZ", [0, 1, 1, 7]),
            ("漢字", [6, 0, 0, 6]),
            ("a漢é字", [4, 0, 6, 9]),
            ("é𠀀 ", [0, 7, 7, 0]),
        ],
    ),
    // Code points around those at which a character takes one more byte, or has another lead byte.
    (
        &[0x7F, 0x81, 0xBF, 0xC1, 0x7BF, 0x7C1, 0x7FF, 0x801],
        &[
            ("~\u{7F}\u{80}", [0, 1, 1, 4]),
            ("\u{7F}\u{80}\u{81}", [3, 0, 5, 3]),
            ("\u{BE}\u{BF}\u{C0}", [0, 2, 2, 6]),
            ("\u{BF}\u{C0}\u{C1}", [4, 0, 6, 4]),
            ("\u{7BE}\u{7BF}\u{7C0}", [0, 2, 2, 6]),
            ("\u{7BF}\u{7C0}\u{7C1}", [4, 0, 6, 4]),
            ("\u{7FE}\u{7FF}\u{800}", [0, 2, 2, 7]),
            ("\u{7FF}\u{800}\u{801}", [5, 0, 8, 5]),
        ],
    ),
];

/// Expects these spans for the set.
fn expect_in_set(set: &CodePointInversionList<'_>, rows: &[TextSpans]) {
    for (text, want) in rows {
        let found = [
            set.span(text, true),
            set.span(text, false),
            set.span_back(text, true),
            set.span_back(text, false),
        ];
        expect_same(found, *want, text);
    }
}

/// Expects these spans for the frozen set.
fn expect_in_frozen(frozen: &FrozenCodePointSet, rows: &[TextSpans]) {
    for (text, want) in rows {
        let found = [
            frozen.span(text, true),
            frozen.span(text, false),
            frozen.span_back(text, true),
            frozen.span_back(text, false),
        ];
        expect_same(found, *want, text);
    }
}

/// Calls: `CodePointInversionList::span`, `CodePointInversionList::span_back`,
/// `FrozenCodePointSet::span`, `FrozenCodePointSet::span_back`.
#[test]
fn spans_quiet() {
    none_asked(|| {
        for (ends, rows) in SPANS.iter() {
            let Some(frozen) = frozen_of(ends) else {
                return;
            };
            say("call");
            expect_in_set(frozen.as_set(), rows);
            expect_in_frozen(&frozen, rows);
            say("done");
        }
    });
}

/// Returns the next span: its text, and whether it is in the set.
fn next_span<'t>(spans: &mut Spans<'_, 't>) -> Option<(&'t str, bool)> {
    let span = spans.next()?;
    Some((span.text, span.is_held))
}

/// Expects exactly these spans to be left.
fn expect_spans(mut spans: Spans<'_, '_>, want: &[(&str, bool)], text: &str) {
    for piece in want {
        expect_same(next_span(&mut spans), Some(*piece), text);
    }
    expect_same(next_span(&mut spans), None, text);
}

/// A text and its spans, each with whether it is in the set.
type TextPieces = (&'static str, &'static [(&'static str, bool)]);

/// Texts and their spans. The set has a block of Han, U+D7FF to U+E000 (all but the first and the
/// last are surrogates), and U+FFFF and U+10000. So there are characters of one to four bytes.
static PIECES: [TextPieces; 7] = [
    ("", &[]),
    ("漢字", &[("漢字", true)]),
    ("a é", &[("a é", false)]),
    (
        "a漢é字",
        &[("a", false), ("漢", true), ("é", false), ("字", true)],
    ),
    ("zé漢\u{10000}", &[("zé", false), ("漢\u{10000}", true)]),
    (
        "\u{D7FE}\u{D7FF}\u{E000}\u{E001}",
        &[
            ("\u{D7FE}", false),
            ("\u{D7FF}\u{E000}", true),
            ("\u{E001}", false),
        ],
    ),
    (
        "\u{FFFF}\u{10000}\u{10001}z",
        &[("\u{FFFF}\u{10000}", true), ("\u{10001}z", false)],
    ),
];

/// Calls: `FrozenCodePointSet::spans`, `Spans::next`.
#[test]
fn pieces_quiet() {
    none_asked(|| {
        let ends = [0x4E00, 0xA000, 0xD7FF, 0xE001, 0xFFFF, 0x1_0001];
        let Some(frozen) = frozen_of(&ends) else {
            return;
        };
        say("call");
        for (text, want) in PIECES.iter() {
            expect_spans(frozen.spans(text), want, text);
        }
        say("done");
    });
}

/// Bytes, and the lengths of their spans inside and outside the ASCII letters. An ill-formed
/// sequence ends both.
static BYTES: [(&[u8], [usize; 2]); 10] = [
    (b"", [0, 0]),
    (b"ab1", [2, 0]),
    (b"1ab", [0, 1]),
    (b"abc", [3, 0]),
    (b"ab\xFFc", [2, 0]),
    (b"\xFFab", [0, 0]),
    (b"12\xC3", [0, 2]),
    (b"\xC3\xA9\xE6\xBC", [0, 2]),
    (b"a\xED\xA0\x80", [1, 0]),
    (b"\xC0\x80", [0, 0]),
];

/// Queries of the ASCII letters with bytes, code points and ranges, one of which is empty.
///
/// Calls: `FrozenCodePointSet::span_utf8`, `FrozenCodePointSet::contains_range`,
/// `FrozenCodePointSet::contains`, `FrozenCodePointSet::contains32`, `FrozenCodePointSet::as_set`.
#[test]
fn frozen_calls_quiet() {
    none_asked(|| {
        let Some(frozen) = frozen_of(&LETTERS) else {
            return;
        };
        say("call");
        for (bytes, want) in BYTES.iter() {
            let found = [
                frozen.span_utf8(bytes, true),
                frozen.span_utf8(bytes, false),
            ];
            expect_same(found, *want, "held, and not held");
        }
        let ranges = [
            frozen.contains_range('A'..='Z'),
            frozen.contains_range('A'..'['),
            frozen.contains_range('A'..='['),
            frozen.contains_range('B'..'B'),
            frozen.contains_range(..),
        ];
        let held = [
            frozen.contains('A'),
            frozen.contains32(0x41),
            frozen == frozen,
        ];
        let size = frozen.as_set().size();
        say("done");
        expect_same(ranges, [true, true, false, false, false], "ranges");
        expect_same(held, [true; 3], "A, its number, and equal to itself");
        expect_same(size, 52, "size");
    });
}

/// The boundaries of a set in which whole words, blocks and planes are full.
const RUNS: [u32; 6] = [0x41, 0x5B, 0x3F0, 0xE000, 0x1_0000, 0x11_0000];

/// Ranges in one word, over several words and blocks, long ranges, and ranges that end with a
/// surrogate.
///
/// Calls: `FrozenCodePointSet::contains_range`.
#[test]
fn frozen_ranges_quiet() {
    none_asked(|| {
        let Some(frozen) = frozen_of(&RUNS) else {
            return;
        };
        say("call");
        let held = [
            frozen.contains_range('\u{3F0}'..='\u{3FF}'),
            frozen.contains_range('\u{3F0}'..'\u{500}'),
            frozen.contains_range('\u{43F}'..='\u{541}'),
            frozen.contains_range('\u{D700}'..'\u{E000}'),
            frozen.contains_range('\u{3F0}'..'\u{E000}'),
            frozen.contains_range('\u{3F0}'..='\u{D7FF}'),
            frozen.contains_range('\u{10000}'..),
        ];
        let others = [
            frozen.contains_range('A'..='['),
            frozen.contains_range('\u{3EF}'..='\u{541}'),
            frozen.contains_range('Z'..='\u{3F0}'),
            frozen.contains_range('\u{D700}'..='\u{E000}'),
            frozen.contains_range('\u{3F0}'..='\u{E000}'),
            frozen.contains_range('\u{FFFF}'..'\u{10100}'),
            frozen.contains_range('\u{FFFF}'..),
        ];
        say("done");
        expect_same(held, [true; 7], "ranges in the set");
        expect_same(others, [false; 7], "ranges that are not");
    });
}

/// Says that the call is done. Expects the frozen set, if it was made, to return the right
/// results.
fn expect_frozen(made: Option<FrozenCodePointSet>) {
    tell(made.is_none());
    if let Some(frozen) = made {
        let found = [frozen.contains('A'), frozen.contains('1')];
        expect_same(found, [true, false], "letters");
    }
}

/// The set that was frozen is unchanged.
///
/// Calls: `FrozenCodePointSet::try_freeze`.
#[test]
fn freeze_refused() {
    each_refused(|| {
        let Some(set) = set_of(&LETTERS) else {
            return;
        };
        say("call");
        let made = frozen(&set);
        expect_frozen(made);
        expect_listed(&set, &LETTERS);
    });
}

/// Calls: `FrozenCodePointSet::try_clone`.
#[test]
fn try_clone_of_frozen_refused() {
    each_refused(|| {
        let Some(frozen) = frozen_of(&LETTERS) else {
            return;
        };
        say("call");
        let made = frozen.try_clone();
        expect_frozen(made.ok());
        expect(frozen.contains('A'), "the set that was lent");
    });
}

/// Sets by their boundaries, and how many words their frozen sets take: one for each block of 1,024
/// code points up to the one after that of the last boundary below 0x110000; sixteen for each of the
/// first block, the empty one and the full one; and sixteen for each other block with a boundary
/// inside. The third set is White_Space.
static WORD_COUNTS: [(&[u32], usize); 6] = [
    (&[], 2 + 48),
    (&[0, 0x11_0000], 2 + 48),
    (
        &[
            0x09, 0x0E, 0x20, 0x21, 0x85, 0x86, 0xA0, 0xA1, 0x1680, 0x1681, 0x2000, 0x200B, 0x2028,
            0x202A, 0x202F, 0x2030, 0x205F, 0x2060, 0x3000, 0x3001,
        ],
        14 + 48 + 3 * 16,
    ),
    (&[0x3FF, 0x400], 3 + 48),
    (&[0x7FF, 0x800], 4 + 48 + 16),
    (&[0x10_FFFF, 0x11_0000], 1088 + 48 + 16),
];

/// Returns the index of the sixteen words of this block in the words of a frozen set.
fn offset_of(words: &[u64], block: usize) -> usize {
    let last = (words[0] & 0xFFFF_FFFF) as usize - 1;
    (words[block.min(last)] & 0xFFFF_FFFF) as usize
}

/// The letters are bits 1 to 26 of both halves of the second word of the first block. All later
/// blocks are empty.
///
/// Calls: `FrozenCodePointSet::as_words`, `FrozenCodePointSet::as_view`.
#[test]
fn frozen_words_quiet() {
    none_asked(|| {
        let Some(frozen) = frozen_of(&LETTERS) else {
            return;
        };
        say("call");
        let words = frozen.as_words();
        let letters = words.get(offset_of(words, 0) + 1).copied();
        let empty = [words[offset_of(words, 1)], words[offset_of(words, 1087)]];
        let view = frozen.as_view();
        let held = [view.contains('A'), view.contains('1')];
        say("done");
        expect_same(words.len(), 2 + 48, "words");
        expect_same(letters, Some(0x07FF_FFFE_07FF_FFFE), "the word");
        expect_same(empty, [0, 0], "words of empty blocks");
        expect_same(held, [true, false], "A, and 1");
        for (ends, want) in WORD_COUNTS {
            if let Some(counted) = frozen_of(ends) {
                expect_same(counted.as_words().len(), want, "words of other sets");
            }
        }
    });
}

/// Bytes, and the offsets at which their last spans inside and outside the ASCII letters start. An
/// ill-formed sequence ends both.
static BYTES_BACK: [(&[u8], [usize; 2]); 7] = [
    (b"", [0, 0]),
    (b"1ab", [1, 3]),
    (b"ab1", [3, 2]),
    (b"a\xFFbc", [2, 4]),
    (b"ab\xFF", [3, 3]),
    (b"\xA9\xC3\xA9", [3, 1]),
    (b"1\xED\xA0\x80", [4, 4]),
];

/// Units, and how many are in their spans inside and outside a block of Han and U+10000. An unpaired
/// surrogate is a code point of its own.
static UNITS: [(&[u16], [usize; 2]); 6] = [
    (&[], [0, 0]),
    (&[0x6F22, 0x5B57, 0x61], [2, 0]),
    (&[0x6F22, 0xD800, 0xDC00, 0x61], [3, 0]),
    (&[0xD800, 0xDC01, 0x6F22], [0, 2]),
    (&[0xD800, 0x6F22], [0, 1]),
    (&[0x61, 0xDC00, 0xD800], [0, 3]),
];

/// The same spans by a frozen set and by a view of its words.
///
/// Calls: `FrozenCodePointSet::span_utf8`, `FrozenCodePointSet::span_back_utf8`,
/// `FrozenCodePointSet::span_utf16`, `FrozenView::new`, `FrozenView::span_utf8`,
/// `FrozenView::span_back_utf8`, `FrozenView::span_utf16`.
#[test]
fn spans_of_bytes_quiet() {
    none_asked(|| {
        let Some(letters) = frozen_of(&LETTERS) else {
            return;
        };
        let Some(others) = frozen_of(&[0x4E00, 0xA000, 0x1_0000, 0x1_0001]) else {
            return;
        };
        say("call");
        let view = FrozenView::new(letters.as_words());
        for (bytes, want) in BYTES.iter() {
            let found = [view.span_utf8(bytes, true), view.span_utf8(bytes, false)];
            expect_same(found, *want, "held, and not held");
            let found = [
                letters.span_utf8(bytes, true),
                letters.span_utf8(bytes, false),
            ];
            expect_same(found, *want, "of the set");
        }
        for (bytes, want) in BYTES_BACK.iter() {
            let found = [
                view.span_back_utf8(bytes, true),
                view.span_back_utf8(bytes, false),
            ];
            expect_same(found, *want, "from the end");
            let found = [
                letters.span_back_utf8(bytes, true),
                letters.span_back_utf8(bytes, false),
            ];
            expect_same(found, *want, "from the end, of the set");
        }
        let view = FrozenView::new(others.as_words());
        for (units, want) in UNITS.iter() {
            let found = [view.span_utf16(units, true), view.span_utf16(units, false)];
            expect_same(found, *want, "of units");
            let found = [
                others.span_utf16(units, true),
                others.span_utf16(units, false),
            ];
            expect_same(found, *want, "of units, of the set");
        }
        say("done");
    });
}

/// A view returns what its set returns. It accepts any words.
///
/// Calls: `FrozenView::new`, `FrozenView::contains`, `FrozenView::contains32`, `FrozenView::span`,
/// `FrozenView::span_back`, `FrozenView::contains_range`.
#[test]
fn views_quiet() {
    none_asked(|| {
        for (ends, rows) in SPANS.iter() {
            let Some(frozen) = frozen_of(ends) else {
                return;
            };
            say("call");
            let view = FrozenView::new(frozen.as_words());
            for (text, want) in rows.iter() {
                let found = [
                    view.span(text, true),
                    view.span(text, false),
                    view.span_back(text, true),
                    view.span_back(text, false),
                ];
                expect_same(found, *want, text);
            }
            let held = [
                view.contains32(ends[0]),
                view.contains32(ends[0] - 1),
                view.contains32(ends[1]),
                view.contains32(0x11_0000),
            ];
            say("done");
            expect_same(held, [true, false, false, false], "around the first range");
        }
        let Some(frozen) = frozen_of(&RUNS) else {
            return;
        };
        say("call");
        let view = FrozenView::new(frozen.as_words());
        let ranges = [
            view.contains_range('\u{3F0}'..'\u{E000}'),
            view.contains_range('\u{43F}'..='\u{541}'),
            view.contains_range('\u{10000}'..),
            view.contains_range('\u{3EF}'..='\u{541}'),
            view.contains_range('B'..'B'),
            view.contains_range('\u{FFFF}'..),
        ];
        let none = FrozenView::new(&[]);
        let cut = FrozenView::new(&frozen.as_words()[..1]);
        let of_few = [
            none.contains('A'),
            none.contains_range('A'..='B'),
            cut.contains('\u{10FFFF}'),
        ];
        say("done");
        expect_same(ranges, [true, true, true, false, false, false], "ranges");
        expect_same(of_few, [false; 3], "of missing words");
    });
}

/// Bytes, and the spans of them that ICU4C's `uset_spanUTF8` and `uset_spanBackUTF8` find inside and
/// outside the ASCII letters, without U+FFFD and with it.
static BYTES_LOSSY: [(&[u8], [usize; 4], [usize; 4]); 8] = [
    (b"", [0, 0, 0, 0], [0, 0, 0, 0]),
    (b"ab1", [2, 0, 3, 2], [2, 0, 3, 2]),
    (b"a\xFFbc", [1, 0, 2, 4], [4, 0, 0, 4]),
    (b"1\xFF\xE4\xB8ab", [0, 4, 4, 6], [0, 1, 1, 6]),
    (b"\xED\xA0\x801", [0, 4, 4, 0], [3, 0, 4, 3]),
    (b"\xA9\xC3\xA9", [0, 3, 3, 0], [1, 0, 3, 1]),
    (b"1\xED\xA0\x80", [0, 4, 4, 0], [0, 1, 1, 4]),
    (b"b\xF0\x9F\x98", [1, 0, 4, 1], [4, 0, 0, 4]),
];

/// Calls: `FrozenCodePointSet::span_utf8_lossy`, `FrozenCodePointSet::span_back_utf8_lossy`,
/// `FrozenView::span_utf8_lossy`, `FrozenView::span_back_utf8_lossy`.
#[test]
fn lossy_spans_quiet() {
    none_asked(|| {
        let Some(plain) = frozen_of(&LETTERS) else {
            return;
        };
        let Some(replaced) = frozen_of(&[0x41, 0x5B, 0x61, 0x7B, 0xFFFD, 0xFFFE]) else {
            return;
        };
        say("call");
        for (bytes, without, with) in BYTES_LOSSY.iter() {
            for (set, want) in [(&plain, without), (&replaced, with)] {
                let found = [
                    set.span_utf8_lossy(bytes, true),
                    set.span_utf8_lossy(bytes, false),
                    set.span_back_utf8_lossy(bytes, true),
                    set.span_back_utf8_lossy(bytes, false),
                ];
                expect_same(found, *want, "of the set");
                let view = FrozenView::new(set.as_words());
                let found = [
                    view.span_utf8_lossy(bytes, true),
                    view.span_utf8_lossy(bytes, false),
                    view.span_back_utf8_lossy(bytes, true),
                    view.span_back_utf8_lossy(bytes, false),
                ];
                expect_same(found, *want, "of the view");
            }
        }
        say("done");
    });
}
