//! JSON of sets, unit tries and tries: values that are read and written, and faults.

use crate::sets::set_of;
use crate::unit_tries::trie_of;
use bekstaudi::char16trie::{Char16JsonError, Char16Trie};
use bekstaudi::codepointinvlist::{CodePointInversionList, SetJsonError};
use bekstaudi::codepointinvliststringlist::CodePointInversionListAndStringList;
use bekstaudi::codepointtrie::CodePointTrieError;
use bekstaudi::codepointtrie::json::{TrieJsonError, from_json, to_json};
use serde_json::Value;

/// Returns the value that a JSON text spells.
fn value_of(text: &str) -> Value {
    serde_json::from_str(text).expect("no value")
}

/// Texts, and the boundaries of their sets.
static SETS: [(&str, &[u32]); 8] = [
    ("[\"A-A\"]", &[0x41, 0x42]),
    ("[\"U+d800\"]", &[0xD800, 0xD801]),
    ("[\"U-W\"]", &[0x55, 0x58]),
    ("[\"AU+002DC\"]", &[0x41, 0x44]),
    ("[\"--/\"]", &[0x2D, 0x30]),
    ("[]", &[]),
    (
        "[\"-\",\"U\",\"U+D800-U+DFFF\"]",
        &[0x2D, 0x2E, 0x55, 0x56, 0xD800, 0xE000],
    ),
    ("[\"A-Z\",\"U+DABC\"]", &[0x41, 0x5B, 0xDABC, 0xDABD]),
];

#[test]
fn sets_read() {
    for (text, want) in &SETS {
        let set = CodePointInversionList::from_json(&value_of(text));
        assert_eq!(set, Ok(set_of(want)), "{text}");
    }
}

/// Texts that do not spell sets, and the errors.
static NO_SETS: [(&str, SetJsonError); 6] = [
    ("[\"A-B\", \"C-D\"]", SetJsonError::InvalidSet),
    ("[\"A--\"]", SetJsonError::InvalidSet),
    ("[\"A\", \"U+\"]", SetJsonError::NotARange(1)),
    ("[\"U++123\"]", SetJsonError::NotARange(0)),
    ("[\"A\", 5, \"\"]", SetJsonError::NotAString(1)),
    ("{}", SetJsonError::NotAnArray),
];

#[test]
fn no_sets() {
    for (text, want) in &NO_SETS {
        let set = CodePointInversionList::from_json(&value_of(text));
        assert_eq!(set, Err(*want), "{text}");
    }
}

/// Sets by their boundaries, and their texts.
static WRITTEN_SETS: [(&[u32], &str); 2] = [
    (
        &[0x2D, 0x2E, 0x55, 0x56, 0xD800, 0xE000],
        "[\"-\",\"U\",\"U+D800-U+DFFF\"]",
    ),
    (&[0x41, 0x5B, 0xDABC, 0xDABD], "[\"A-Z\",\"U+DABC\"]"),
];

#[test]
fn sets_written() {
    for (ends, want) in &WRITTEN_SETS {
        let value = set_of(ends).to_json().expect("no memory");
        assert_eq!(value.to_string(), *want, "{ends:X?}");
    }
}

/// Texts that do not spell sets, and the texts of the errors.
static NO_SETS_OF_STRINGS: [(&str, &str); 6] = [
    (
        "[]",
        "no object with arrays `cp_inv_list` and `str_list`, at the key ``",
    ),
    (
        "{\"str_list\":[]}",
        "no object with arrays `cp_inv_list` and `str_list`, at the key `cp_inv_list`",
    ),
    ("{\"cp_inv_list\":5}", "code points: no array"),
    (
        "{\"cp_inv_list\":[]}",
        "no object with arrays `cp_inv_list` and `str_list`, at the key `str_list`",
    ),
    (
        "{\"cp_inv_list\":[\"A\"],\"str_list\":[\"ab\",5]}",
        "item 1 of the strings is no string",
    ),
    (
        "{\"cp_inv_list\":[],\"str_list\":[\"a\"]}",
        "Invalid string length for string: a",
    ),
];

#[test]
fn no_sets_of_strings() {
    for (text, want) in &NO_SETS_OF_STRINGS {
        let set = CodePointInversionListAndStringList::from_json(&value_of(text));
        assert_eq!(set.expect_err("a set").to_string(), *want, "{text}");
    }
}

#[test]
fn set_of_strings_written() {
    let set: CodePointInversionListAndStringList = ["abc", "a", "", "b"].into_iter().collect();
    let value = set.to_json().expect("no memory");
    let want = r#"{"cp_inv_list":["a-b"],"str_list":["","abc"]}"#;
    assert_eq!(value.to_string(), want);
}

/// A JSON text, and its units or its error: a wrong shape, or the index of a wrong number.
type Units = (&'static str, Result<&'static [u16], Char16JsonError>);

static UNIT_TRIES: [Units; 14] = [
    (
        r#"{"data":[49,97,98,32771]}"#,
        Ok(&[0x31, 0x61, 0x62, 0x8003]),
    ),
    (r#"{"trie_data":[32775]}"#, Ok(&[0x8007])),
    (r#"{"data":[],"other":1}"#, Ok(&[])),
    (r#"{"data":[0,65535]}"#, Ok(&[0, 65535])),
    (r#"{"data":[],"trie_data":[]}"#, Err(Char16JsonError::Shape)),
    (
        r#"{"data":[65536],"trie_data":1}"#,
        Err(Char16JsonError::Shape),
    ),
    (r#"{"other":[]}"#, Err(Char16JsonError::Shape)),
    (r#"[1,2]"#, Err(Char16JsonError::Shape)),
    (r#"{"data":{"data":[]}}"#, Err(Char16JsonError::Shape)),
    (r#"{"data":[1,65536]}"#, Err(Char16JsonError::Number(1))),
    (r#"{"data":[-1,65536]}"#, Err(Char16JsonError::Number(0))),
    (r#"{"data":[1,1.5]}"#, Err(Char16JsonError::Number(1))),
    (r#"{"data":["1"]}"#, Err(Char16JsonError::Number(0))),
    (r#"{"trie_data":[7,null]}"#, Err(Char16JsonError::Number(1))),
];

#[test]
fn unit_tries() {
    for (text, want) in &UNIT_TRIES {
        let trie = Char16Trie::from_json(&value_of(text));
        assert_eq!(trie, want.map(trie_of), "{text}");
    }
}

/// The start of an object: a header up to the value of its type.
const HEADER: &str = r#"{"header":{"high_start":0,"shifted12_high_start":0,"index3_null_offset":32767,
"data_null_offset":0,"null_value":0,"trie_type":"#;

/// 64 cells of 0.
const INDEX: &str = r#""index":[
0,0,0,0,0,0,0,0,0,0,0,0,0,0,0,0,0,0,0,0,0,0,0,0,0,0,0,0,0,0,0,0,
0,0,0,0,0,0,0,0,0,0,0,0,0,0,0,0,0,0,0,0,0,0,0,0,0,0,0,0,0,0,0,0]"#;

/// 64 cells of 0, the high value 7 and the error value 9.
const DATA: &str = r#""data":[
0,0,0,0,0,0,0,0,0,0,0,0,0,0,0,0,0,0,0,0,0,0,0,0,0,0,0,0,0,0,0,0,
0,0,0,0,0,0,0,0,0,0,0,0,0,0,0,0,0,0,0,0,0,0,0,0,0,0,0,0,0,0,0,0,
7,9]}"#;

/// The parts of a trie's object.
const WHOLE: [&str; 5] = [HEADER, r#""Small"},"#, INDEX, ",", DATA];

/// The parts of values that are no tries, with the error: faults of the header, of the arrays, and
/// of both.
static FAULTS: [(&[&str], TrieJsonError); 15] = [
    (&["[]"], TrieJsonError::Shape("")),
    (&["{}"], TrieJsonError::Shape("header")),
    (&[r#"{"header":[]}"#], TrieJsonError::Shape("header")),
    (&[r#"{"header":{}}"#], TrieJsonError::Shape("high_start")),
    (
        &[r#"{"header":{"high_start":-1}}"#],
        TrieJsonError::Number("high_start"),
    ),
    (
        &[r#"{"header":{"high_start":0,"shifted12_high_start":65536}}"#],
        TrieJsonError::Number("shifted12_high_start"),
    ),
    (&[HEADER, r#""Slow"}}"#], TrieJsonError::Shape("trie_type")),
    (&[HEADER, "1}}"], TrieJsonError::Shape("trie_type")),
    (&[HEADER, r#""Small"}}"#], TrieJsonError::Shape("index")),
    (
        &[HEADER, r#""Small"},"index":[65536]}"#],
        TrieJsonError::Number("index"),
    ),
    (
        &[HEADER, r#""Small"},"#, INDEX, "}"],
        TrieJsonError::Shape("data"),
    ),
    (
        &[HEADER, r#""Small"},"#, INDEX, r#","data":[0,0.5]}"#],
        TrieJsonError::Number("data"),
    ),
    (
        &[HEADER, r#""Small"},"#, INDEX, r#","data":[0,0,0,300]}"#],
        TrieJsonError::Value(3),
    ),
    (
        &[HEADER, r#""Small"},"#, INDEX, r#","data":[]}"#],
        TrieJsonError::Trie(CodePointTrieError::EmptyDataVector),
    ),
    (
        &[HEADER, r#""Fast"},"#, INDEX, ",", DATA],
        TrieJsonError::Trie(CodePointTrieError::IndexTooShortForFastAccess),
    ),
];

/// The error is the first fault of the value.
#[test]
fn values_of_no_trie() {
    for (parts, fault) in &FAULTS {
        let trie = from_json::<u8>(&value_of(&parts.concat()));
        assert_eq!(trie, Err(*fault), "{parts:?}");
    }
}

/// A trie is written as the value from which it was read.
#[test]
fn there_and_back() {
    let value = value_of(&WHOLE.concat());
    let trie = from_json::<u8>(&value).expect("no trie");
    assert_eq!(to_json(&trie).expect("no memory"), value);
}
