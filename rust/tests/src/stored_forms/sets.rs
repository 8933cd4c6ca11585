//! Sets of code points, and of code points and texts; names of the errors by which forms are rejected.

use crate::icu_char16trie::char16trie::Char16JsonError;
use crate::icu_invlist::codepointinvlist::{CodePointInversionList, SetError, SetJsonError};
use crate::icu_invlist_binary::serialized::SerializedSetError;
use crate::icu_text_sets::codepointinvliststringlist::{
    CodePointInversionListAndStringList, StringListJsonError,
};
use crate::icu_trie::error::CodePointTrieError;
use crate::icu_trie_binary::binary::{BinaryError, SwappedError};
use crate::icu_trie_formats::json::TrieJsonError;
use crate::icu_trie_formats::trie_toml::{TomlError, TrieFromTomlError};
use crate::icu_zerovec::ZeroVec;
use crate::icu_zerovec::ule::UleError;
#[allow(unused_imports)]
use crate::runtime::*;
use crate::stored_forms::{Outcome, value_of};
#[allow(unused_imports)]
use crate::support::prelude::*;
use core::ops::RangeInclusive;

// Sets of code points, and of code points and texts.

/// Whether the range starts at `start` or later, and ends within the code points.
fn follows(range: &RangeInclusive<u32>, start: u32) -> bool {
    let (first, last) = (*range.start(), *range.end());
    start <= first && first <= last && last < 0x11_0000
}

/// How many code points the ranges of a set have. `None` if they are not ascending ranges that the
/// set contains.
fn count_in_ranges(set: &CodePointInversionList<'_>) -> Option<usize> {
    let mut next = 0u32;
    let mut count = 0usize;
    for range in set.iter_ranges() {
        let (first, last) = (*range.start(), *range.end());
        if !follows(&range, next) || !set.contains32(first) || !set.contains32(last) {
            return None;
        }
        count = count.saturating_add(last.saturating_sub(first) as usize + 1);
        next = last.saturating_add(2);
    }
    Some(count)
}

/// Whether the ranges outside a set ascend, and the set contains neither bound of any of them.
fn has_gaps(set: &CodePointInversionList<'_>) -> bool {
    let mut next = 0u32;
    for range in set.iter_ranges_complemented() {
        let (first, last) = (*range.start(), *range.end());
        if !follows(&range, next) || set.contains32(first) || set.contains32(last) {
            return false;
        }
        next = last.saturating_add(2);
    }
    true
}

/// How many characters a set lists.
fn count_of_chars(set: &CodePointInversionList<'_>) -> usize {
    let mut count = 0usize;
    for _ in set.iter_chars() {
        count = count.saturating_add(1);
    }
    count
}

/// Whether the functions of a set agree.
fn is_right(set: &CodePointInversionList<'_>) -> bool {
    let size = set.size();
    count_in_ranges(set) == Some(size) && has_gaps(set) && count_of_chars(set) <= size
}

/// The outcome of calling the functions of a set.
pub fn asked(set: &CodePointInversionList<'_>) -> Outcome {
    if is_right(set) {
        Outcome::Taken
    } else {
        Outcome::Wrong("a set of other ranges")
    }
}

/// The outcome of reading bytes as the boundaries of a set.
pub fn of_bytes(bytes: &[u8]) -> Outcome {
    let ends = match ZeroVec::parse_bytes(bytes) {
        Ok(ends) => ends,
        Err(error) => return by_bytes(error),
    };
    match CodePointInversionList::try_from_inversion_list_fallible(ends) {
        Ok(set) => asked(&set),
        Err(error) => by_ends(error),
    }
}

/// The outcome of reading a text as the JSON of a set.
pub fn of_json(text: &[u8]) -> Outcome {
    let value = match value_of(text) {
        Ok(value) => value,
        Err(outcome) => return outcome,
    };
    match CodePointInversionList::from_json(&value) {
        Ok(set) => asked(&set),
        Err(error) => by_set_json(error),
    }
}

/// Whether each string of a set is a member, and is less than the next one by its bytes.
fn has_strings(set: &CodePointInversionListAndStringList<'_>) -> bool {
    let mut before: Option<&str> = None;
    for string in set.string_slice() {
        let text = string.as_str();
        let is_after = match before {
            Some(other) => other < text,
            None => true,
        };
        if !is_after || !set.contains_str(text) {
            return false;
        }
        before = Some(text);
    }
    true
}

/// The outcome of reading a text as the JSON of a set with strings.
pub fn of_text_json(text: &[u8]) -> Outcome {
    let value = match value_of(text) {
        Ok(value) => value,
        Err(outcome) => return outcome,
    };
    match CodePointInversionListAndStringList::from_json(&value) {
        Ok(set) if has_strings(&set) => asked(set.code_points()),
        Ok(_) => Outcome::Wrong("strings that are out of order"),
        Err(error) => by_text_set_json(&error),
    }
}

/// The set that a JSON text describes, if it does.
pub fn stored_set(text: &[u8]) -> Option<CodePointInversionList<'static>> {
    let value = value_of(text).ok()?;
    CodePointInversionList::from_json(&value).ok()
}

// Names of the errors by which forms are rejected.

/// Rejected as bytes.
pub fn by_bytes(error: UleError) -> Outcome {
    Outcome::Refused(match error {
        UleError::Length => "Length",
        UleError::Cell(_) => "Cell",
    })
}

/// Rejected as the parts of a trie.
pub fn by_parts(error: CodePointTrieError) -> Outcome {
    Outcome::Refused(match error {
        CodePointTrieError::FromDeserialized { .. } => "FromDeserialized",
        CodePointTrieError::EmptyDataVector => "EmptyDataVector",
        CodePointTrieError::IndexTooShortForFastAccess => "IndexTooShortForFastAccess",
        CodePointTrieError::DataTooShortForFastAccess => "DataTooShortForFastAccess",
        CodePointTrieError::InvalidNullValue => "InvalidNullValue",
    })
}

/// Rejected as the JSON of a trie.
pub fn by_trie_json(error: TrieJsonError) -> Outcome {
    match error {
        TrieJsonError::Shape(_) => Outcome::Refused("TrieJson::Shape"),
        TrieJsonError::Number(_) => Outcome::Refused("TrieJson::Number"),
        TrieJsonError::Value(_) => Outcome::Refused("TrieJson::Value"),
        TrieJsonError::Trie(error) => by_parts(error),
        TrieJsonError::Memory => Outcome::Wrong("memory was refused"),
    }
}

/// Rejected as the table of a trie.
pub fn by_table(error: TomlError) -> Outcome {
    match error {
        TomlError::Missing(_) => Outcome::Refused("Toml::Missing"),
        TomlError::OutOfRange(_) => Outcome::Refused("Toml::OutOfRange"),
        TomlError::Memory => Outcome::Wrong("memory was refused"),
    }
}

/// Rejected as the trie that a table describes.
pub fn by_table_parts(error: TrieFromTomlError) -> Outcome {
    match error {
        TrieFromTomlError::Trie(error) => by_parts(error),
        TrieFromTomlError::Table(_) => Outcome::Wrong("the table was read"),
        TrieFromTomlError::Memory => Outcome::Wrong("memory was refused"),
    }
}

/// Rejected as the boundaries of a set.
pub fn by_ends(error: SetError) -> Outcome {
    match error {
        SetError::Invalid(_) => Outcome::Refused("Invalid"),
        SetError::Memory => Outcome::Wrong("memory was refused"),
    }
}

/// Rejected as the JSON of a set.
pub fn by_set_json(error: SetJsonError) -> Outcome {
    match error {
        SetJsonError::NotAnArray => Outcome::Refused("SetJson::NotAnArray"),
        SetJsonError::NotAString(_) => Outcome::Refused("SetJson::NotAString"),
        SetJsonError::NotARange(_) => Outcome::Refused("SetJson::NotARange"),
        SetJsonError::InvalidSet => Outcome::Refused("SetJson::InvalidSet"),
        SetJsonError::Memory => Outcome::Wrong("memory was refused"),
    }
}

/// Rejected as the JSON of a set with strings.
pub fn by_text_set_json(error: &StringListJsonError) -> Outcome {
    match error {
        StringListJsonError::Shape(_) => Outcome::Refused("StringListJson::Shape"),
        StringListJsonError::Set(error) => by_set_json(*error),
        StringListJsonError::NotAString(_) => Outcome::Refused("StringListJson::NotAString"),
        StringListJsonError::Strings(_) => Outcome::Refused("StringListJson::Strings"),
        StringListJsonError::Memory => Outcome::Wrong("memory was refused"),
    }
}

/// Rejected as the JSON of a unit trie.
pub fn by_unit_json(error: Char16JsonError) -> Outcome {
    match error {
        Char16JsonError::Shape => Outcome::Refused("Char16Json::Shape"),
        Char16JsonError::Number(_) => Outcome::Refused("Char16Json::Number"),
        Char16JsonError::Memory => Outcome::Wrong("memory was refused"),
    }
}

/// Rejected as a trie in ICU's binary form.
pub fn by_binary(error: BinaryError) -> Outcome {
    match error {
        BinaryError::Short => Outcome::Refused("Binary::Short"),
        BinaryError::Signature => Outcome::Refused("Binary::Signature"),
        BinaryError::Swapped => Outcome::Refused("Binary::Swapped"),
        BinaryError::UnknownType => Outcome::Refused("Binary::UnknownType"),
        BinaryError::UnknownWidth => Outcome::Refused("Binary::UnknownWidth"),
        BinaryError::Reserved => Outcome::Refused("Binary::Reserved"),
        BinaryError::OtherWidth => Outcome::Refused("Binary::OtherWidth"),
        BinaryError::CutOff => Outcome::Refused("Binary::CutOff"),
        BinaryError::Cell(_) => Outcome::Wrong("a number that is no value"),
        BinaryError::Trie(error) => by_parts(error),
    }
}

/// Rejected as a trie in ICU's binary form, of the other byte order.
pub fn by_swapped(error: SwappedError) -> Outcome {
    match error {
        SwappedError::Binary(error) => by_binary(error),
        SwappedError::Memory => Outcome::Wrong("memory was refused"),
    }
}

/// Rejected as a set in ICU's serialized form.
pub fn by_serialized(error: SerializedSetError) -> Outcome {
    match error {
        SerializedSetError::Short => Outcome::Refused("SerializedSet::Short"),
        SerializedSetError::Count => Outcome::Refused("SerializedSet::Count"),
        SerializedSetError::Invalid => Outcome::Refused("SerializedSet::Invalid"),
        SerializedSetError::Memory => Outcome::Wrong("memory was refused"),
    }
}
