//! Callers in the crate `examples`, translated and run on rows: a quick check for normalization,
//! completion of words, and cutting a text into words.

use crate::char16trie::Char16Trie;
use crate::codepointtrie::{TrieType, Write, build_from_writes};
use crate::examples::{texts, words};
use std::string::ToString;
use std::vec::Vec;

/// Texts, and whether they are surely normal by two categories: the empty text, one of characters
/// with 1 only, one in which Z has 2, and one in which 1 has 0.
const NORMAL: [(&str, bool); 4] = [("", true), ("ABY", true), ("ABZ", false), ("A1", false)];

/// A text is surely normal if each of its characters has 1.
#[test]
fn texts_that_are_surely_normal() {
    let rows = [
        Write::Range(0x41..=0x5A, 1),
        Write::Range(0x61..=0x7A, 2),
        Write::One(0x5A, 2),
    ];
    let trie = build_from_writes(0u8, 9, TrieType::Small, &rows);
    for (text, want) in NORMAL {
        assert_eq!(texts::is_surely_normal(&trie, text), want, "{text}");
    }
}

/// The trie of "a" with 1 and "ab" with 2, as ICU writes it.
fn word_trie() -> Char16Trie<'static> {
    Char16Trie::new([0x30, 0x61, 0xb0, 0x62, 0x8002].into_iter().collect())
}

/// The continuations of "a" are the empty text and "b".
#[test]
fn words_that_go_on() {
    let want: Vec<_> = [("", 1), ("b", 2)]
        .map(|(it, number)| (it.to_string(), number))
        .into();
    assert_eq!(words::completions(&word_trie(), "a"), Some(want));
    let counts = ["", "a", "ab", "b"].map(|it| words::count_below(&word_trie(), it));
    assert_eq!(counts, [Some(2), Some(2), Some(1), Some(0)]);
}

/// Texts, and the number of units of each word into which they are cut.
const CUT: [(&[u16], &[usize]); 3] = [
    (&[0x61, 0x62, 0x78, 0x61], &[2, 1, 1]),
    (&[0x62, 0x61, 0x61, 0x62], &[1, 1, 2]),
    (&[], &[]),
];

/// Each word is the longest one at its position, or one unit.
#[test]
fn texts_cut_into_words() {
    let trie = word_trie();
    for (text, want) in CUT {
        let lengths = words::cut_into_words(&trie, text).expect("no memory");
        assert_eq!(lengths, want, "{text:X?}");
    }
}
