//! The normalization forms NFD and NFC of a text: [UAX #15].
//!
//! These commands, in the folder of this crate, make its static tries, and for `MAPPING` the list of the
//! mappings that its numbers mean:
//!
//! ```sh
//! U=/usr/share/unicode
//! ucptrie build $U/UnicodeData.txt --property ccc --width 8 --as rust-static --name class -o src/class.rs
//! ucptrie build $U/UnicodeData.txt --field 5 --width 16 --as rust-static --name mapping -o src/mapping.rs
//! ucptrie build $U/UnicodeData.txt --field 5 --as names -o src/mappings.txt
//! for form in nfd nfc; do
//!     ucptrie build $U/DerivedNormalizationProps.txt --property ${form}_qc --aliases $U/PropertyValueAliases.txt \
//!         --width 8 --as rust-static --name ${form}_check -o src/${form}_check.rs
//! done
//! ```
//!
//! [UAX #15]: https://www.unicode.org/reports/tr15/
mod class;
mod mapping;
mod nfc_check;
mod nfd_check;

use bekstaudi::char16trie::{Char16Trie, Char16TrieBuilder};
use bekstaudi::codepointinvlist::{CodePointInversionList, FrozenCodePointSet};
use class::CLASS;
use mapping::MAPPING;
use nfc_check::{NFC_CHECK, NfcCheck};
use nfd_check::{NFD_CHECK, NfdCheck};
use std::sync::LazyLock;

/// A character and its combining class, which is 0 for starters.
type Classed = (u8, char);

/// The canonical decomposition of a character by one step, into one or two characters.
type Mapping = (char, Option<char>);

/// The mapping of each number that `MAPPING` has, or `None` if there is no canonical one.
static MAPPINGS: LazyLock<Vec<Option<Mapping>>> = LazyLock::new(|| {
    let character = |it: &str| char::from_u32(u32::from_str_radix(it, 16).ok()?);
    let mapping = |line: &str| {
        let (_, mapping) = line.split_once(';')?;
        // 0041 0300. A mapping for compatibility starts with a tag: <compat> 0020 0308.
        let mut characters = mapping.split(' ').map_while(character);
        Some((characters.next()?, characters.next()))
    };
    include_str!("mappings.txt").lines().map(mapping).collect()
});

/// The primary composites: for the key U+0041 U+0300 the number of `À`.
static COMPOSITES: LazyLock<Char16Trie<'static>> = LazyLock::new(|| {
    let mut builder = Char16TrieBuilder::new();
    let changed = NFD_CHECK.get_set_for_value(NfdCheck::No);
    for c in (&changed & &NFC_CHECK.get_set_for_value(NfcCheck::Yes)).iter_chars() {
        if let Some((first, Some(second))) = mapping(c) {
            let key = String::from_iter([first, second]);
            builder.add_str(&key, u32::from(c).cast_signed()).expect("one composite of each pair");
        }
    }
    builder.try_build().expect("a small trie")
});

/// The characters that NFD decomposes or moves.
static NFD_CHANGES: LazyLock<FrozenCodePointSet> =
    LazyLock::new(|| with_marks(&NFD_CHECK.get_set_for_value(NfdCheck::No)));

/// The characters that NFC replaces or moves, or may compose with the one before them.
static NFC_CHANGES: LazyLock<FrozenCodePointSet> =
    LazyLock::new(|| with_marks(&NFC_CHECK.get_set_where(|it| it != NfcCheck::Yes)));

fn with_marks(set: &CodePointInversionList) -> FrozenCodePointSet {
    FrozenCodePointSet::freeze(&(set | &CLASS.get_set_where(|class| class != 0)))
}

/// Returns the normalization form NFD of a text.
///
/// ```
/// assert_eq!(normalize::nfd("Ệ"), "E\u{323}\u{302}");
/// ```
pub fn nfd(text: &str) -> String {
    normalize(text, &NFD_CHANGES, |_| {})
}

/// Returns the normalization form NFC of a text.
///
/// ```
/// assert_eq!(normalize::nfc("E\u{302}\u{323}"), "Ệ");
/// ```
pub fn nfc(text: &str) -> String {
    normalize(text, &NFC_CHANGES, compose)
}

/// Decomposes, orders and finishes each run of characters in `changes` together with the character
/// before it. All other characters are copied.
fn normalize(text: &str, changes: &FrozenCodePointSet, finish: fn(&mut Vec<Classed>)) -> String {
    let mut result = String::with_capacity(text.len());
    let mut part = Vec::new();
    let mut rest = text;
    while !rest.is_empty() {
        let stable = changes.span(rest, false);
        let end = stable + changes.span(&rest[stable..], true);
        // The last stable character may compose with those after it.
        let start = rest[..stable].char_indices().next_back().map_or(0, |(offset, _)| offset);
        result.push_str(&rest[..start]);
        rest[start..end].chars().for_each(|c| decompose(c, &mut part));
        part.split_mut(|it| it.0 == 0).for_each(|marks| marks.sort_by_key(|it| it.0));
        finish(&mut part);
        result.extend(part.drain(..).map(|it| it.1));
        rest = &rest[end..];
    }
    result
}

/// Returns the canonical decomposition of a character by one step. That of a syllable of Hangul is
/// computed, as chapter 3.12 of the Unicode Standard says.
fn mapping(c: char) -> Option<Mapping> {
    let Some(syllable) = u32::from(c).checked_sub(0xAC00).filter(|&it| it < 11_172) else {
        return MAPPINGS[usize::from(MAPPING.get(c))];
    };
    let (first, second) = match syllable % 28 {
        0 => (0x1100 + syllable / 588, 0x1161 + syllable / 28 % 21),
        last => (0xAC00 + syllable - last, 0x11A7 + last),
    };
    Some((char::from_u32(first)?, char::from_u32(second)))
}

/// Adds the full canonical decomposition of a character.
fn decompose(c: char, part: &mut Vec<Classed>) {
    match mapping(c) {
        Some((first, second)) => {
            decompose(first, part);
            second.into_iter().for_each(|it| decompose(it, part));
        }
        None => part.push((CLASS.get(c), c)),
    }
}

/// Replaces each starter, and a character after it that nothing blocks from it, by their composite.
fn compose(part: &mut Vec<Classed>) {
    let mut composed: Vec<Classed> = Vec::with_capacity(part.len());
    let mut starter: Option<usize> = None;
    for (class, c) in part.drain(..) {
        if let Some(index) = starter
            && (index + 1 == composed.len() || composed[composed.len() - 1].0 < class)
            && let Some(composite) = composite(composed[index].1, c)
        {
            composed[index].1 = composite;
            continue;
        }
        if class == 0 {
            starter = Some(composed.len());
        }
        composed.push((class, c));
    }
    *part = composed;
}

/// Returns the primary composite of two characters.
fn composite(first: char, second: char) -> Option<char> {
    let mut cursor = COMPOSITES.cursor();
    cursor.step(first);
    cursor.step(second);
    char::from_u32(cursor.value()?.cast_unsigned())
}
