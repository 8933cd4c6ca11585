//! Tries, sets and unit tries in JSON.

use crate::icu_char16trie::char16trie::{Char16JsonError, Char16Trie};
use crate::icu_invlist::codepointinvlist::{CodePointInversionList, SetJsonError};
use crate::icu_text_sets::codepointinvliststringlist::{
    CodePointInversionListAndStringList, StringListJsonError,
};
use crate::icu_trie::cptrie::CodePointTrie;
use crate::icu_trie_formats::json::{TrieJsonError, from_json, to_json};
use crate::icu_trie_formats::planes::get_planes_trie;
use crate::icu_zerovec::MemoryError;
use crate::memory::dictionaries::some_trie;
use crate::memory::string_sets::{a_and_ab, expect_a_and_ab, expect_gathered};
use crate::memory::support::{
    basic, expect, expect_answers, expect_listed, expect_same, expect_string, joined, say_refused,
    tell,
};
use crate::refusals::{each_refused, say};
use serde_json::Value;
use std::string::ToString;

// JSON values from texts, and their texts.

/// Parses a JSON text. Returns `None` if it is not JSON.
pub fn value_of_text(text: &str) -> Option<Value> {
    serde_json::from_str::<Value>(text).ok()
}

/// Expects the value to have this text.
pub fn expect_value(value: &Value, want: &str) {
    expect_string(value.to_string(), want);
}

// Conversion of sets to and from JSON.

/// Returns the JSON value of the set, or `None` if an allocation fails.
fn json_of(set: &CodePointInversionList<'_>) -> Option<Value> {
    set.to_json().ok()
}

/// Returns the set in the value, or the error.
fn set_read(value: &Value) -> Result<CodePointInversionList<'static>, SetJsonError> {
    CodePointInversionList::from_json(value)
}

/// Calls: `CodePointInversionList::to_json`.
#[test]
fn set_to_json_refused() {
    let basic = basic();
    say("call");
    let made = json_of(&basic);
    tell(made.is_none());
    if let Some(value) = made {
        expect_value(&value, "[\"\\u0000-\u{FFFF}\"]");
    }
    expect_listed(&basic, &[0, 0x1_0000]);
}

/// Expects the set that was read to have these boundaries. If none was read, expects the error for
/// a failed allocation.
fn expect_read_or_refused(made: Result<CodePointInversionList<'_>, SetJsonError>, want: &[u32]) {
    tell(made.is_err());
    match made {
        Ok(set) => expect_listed(&set, want),
        Err(error) => expect_same(error, SetJsonError::Memory, "refused"),
    }
}

/// Calls: `CodePointInversionList::from_json`.
#[test]
fn set_from_json_refused() {
    each_refused(|| {
        let Some(value) = value_of_text("[\"A-Z\", \"a-z\"]") else {
            return;
        };
        say("call");
        let made = set_read(&value);
        expect_read_or_refused(made, &[0x41, 0x5B, 0x61, 0x7B]);
        expect_value(&value, "[\"A-Z\",\"a-z\"]");
    });
}

// Conversion of sets with strings to and from JSON.

/// Returns the JSON value of the set, or `None` if an allocation fails.
fn json_of_string_set(set: &CodePointInversionListAndStringList<'_>) -> Option<Value> {
    set.to_json().ok()
}

/// Returns the set in the value, or the error.
fn string_set_read(
    value: &Value,
) -> Result<CodePointInversionListAndStringList<'static>, StringListJsonError> {
    CodePointInversionListAndStringList::from_json(value)
}

/// Calls: `CodePointInversionListAndStringList::to_json`.
#[test]
fn string_set_to_json_refused() {
    let Some(set) = a_and_ab() else {
        return;
    };
    say("call");
    let is_refused = json_of_string_set(&set).is_none();
    tell(is_refused);
    expect_a_and_ab(&set);
}

/// Says that the call is done. Expects the set to have a code point and two strings. If none was
/// read, expects the error for a failed allocation.
fn expect_string_set_read(
    answer: Result<CodePointInversionListAndStringList<'_>, StringListJsonError>,
) {
    match answer {
        Ok(set) => expect_gathered(Some(set)),
        Err(StringListJsonError::Memory) => expect_gathered(None),
        Err(error) => panic!("{error}"),
    }
}

/// Calls: `CodePointInversionListAndStringList::from_json`.
#[test]
fn string_set_from_json_refused() {
    each_refused(|| {
        let text = "{\"cp_inv_list\":[\"a\"],\"str_list\":[\"abc\",\"xyz\"]}";
        let Some(value) = value_of_text(text) else {
            return;
        };
        say("call");
        let answer = string_set_read(&value);
        expect_string_set_read(answer);
        expect_value(&value, text);
    });
}

// Conversion of unit tries to and from JSON.

/// Returns the trie in a JSON value.
fn unit_trie_read(value: &Value) -> Result<Char16Trie<'static>, Char16JsonError> {
    Char16Trie::from_json(value)
}

/// Says that the call is done. Expects the JSON value of "ab" with the value 3 to have this text,
/// or says `refused` if an allocation failed.
fn expect_unit_trie_written(written: Result<Value, MemoryError>) {
    say("done");
    match written {
        Ok(value) => expect_value(&value, r#"{"data":[49,97,98,32771]}"#),
        Err(error) => say_refused(error),
    }
}

/// Calls: `Char16Trie::to_json`.
#[test]
fn unit_trie_to_json_refused() {
    let Some(trie) = some_trie(&[0x31, 0x61, 0x62, 0x8003]) else {
        return;
    };
    say("call");
    let written = trie.to_json();
    expect_unit_trie_written(written);
}

/// Returns the number of units of the trie in a JSON value.
fn unit_trie_len_read(value: &Value) -> Result<usize, Char16JsonError> {
    match unit_trie_read(value) {
        Ok(trie) => Ok(trie.data.len()),
        Err(error) => Err(error),
    }
}

/// Calls: `Char16Trie::from_json`.
#[test]
fn unit_trie_from_json_refused() {
    each_refused(|| {
        let Some(value) = value_of_text(r#"{"data":[32775]}"#) else {
            return;
        };
        say("call");
        let len = unit_trie_len_read(&value);
        say("done");
        if len == Err(Char16JsonError::Memory) {
            say("refused");
        } else {
            expect_same(len, Ok(1), "one unit");
        }
    });
}

// Tries in JSON: failing allocations.

/// The start of an object: a header up to the value of its type.
const HEADER: &str = r#"{"header":{"high_start":0,"shifted12_high_start":0,"index3_null_offset":32767,
"data_null_offset":0,"null_value":0,"trie_type":"#;

/// 64 cells of 0.
const INDEX: &str = r#""index":[
0,0,0,0,0,0,0,0,0,0,0,0,0,0,0,0,0,0,0,0,0,0,0,0,0,0,0,0,0,0,0,0,
0,0,0,0,0,0,0,0,0,0,0,0,0,0,0,0,0,0,0,0,0,0,0,0,0,0,0,0,0,0,0,0]"#;

/// 64 cells of 0, the high value 7 and the error value 9.
const DATA: &str = r#""data":[
0,0,0,0,0,0,0,0,0,0,0,0,0,0,0,0,0,0,0,0,0,0,0,0,0,0,0,0,0,0,0,0,
0,0,0,0,0,0,0,0,0,0,0,0,0,0,0,0,0,0,0,0,0,0,0,0,0,0,0,0,0,0,0,0,
7,9]}"#;

/// The parts of a trie's object.
const WHOLE: [&str; 5] = [HEADER, r#""Small"},"#, INDEX, ",", DATA];

/// The JSON value of a text in parts, or `None` if an allocation fails.
fn value_of(parts: &[&str]) -> Option<Value> {
    let text = joined(parts)?;
    serde_json::from_str::<Value>(text.as_str()).ok()
}

/// Checks that the value has data. If an allocation failed, says `refused`.
fn expect_written(written: Result<Value, MemoryError>) {
    match written {
        Ok(value) => expect(value.get("data").is_some(), "data"),
        Err(MemoryError) => say("refused"),
    }
}

/// Calls: `json::to_json`.
#[test]
fn trie_to_json_refused() {
    let planes = get_planes_trie();
    say("call");
    let written = to_json(&planes);
    say("done");
    expect_written(written);
    expect(planes == get_planes_trie(), "as it was");
}

/// Checks the values of the trie. If an allocation failed, checks the error and says `refused`.
fn expect_read(trie: Result<CodePointTrie<'_, u8>, TrieJsonError>) {
    match trie {
        Ok(trie) => expect_answers(trie, &[(0x41, 0), (0x1000, 7), (0x11_0000, 9)]),
        Err(error) => {
            expect_same(error, TrieJsonError::Memory, "the fault");
            say("refused");
        }
    }
}

/// A value and its copy, or `None` if an allocation fails.
fn two_values() -> Option<(Value, Value)> {
    let value = value_of(&WHOLE)?;
    Some((value, value_of(&WHOLE)?))
}

/// Calls: `json::from_json`.
#[test]
fn trie_from_json_refused() {
    each_refused(|| {
        let Some((value, copy)) = two_values() else {
            return;
        };
        say("call");
        let trie = from_json::<u8>(&value);
        say("done");
        expect_read(trie);
        expect(value == copy, "as it was");
    });
}
