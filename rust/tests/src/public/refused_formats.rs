//! Functions that read JSON and TOML, with each of their allocations failing in turn. Functions
//! that write JSON are left out: serde_json ends the program if one of its own allocations fails.
#![cfg(all(feature = "json", feature = "toml"))]

use bekstaudi::char16trie::Char16Trie;
use bekstaudi::codepointinvlist::CodePointInversionList;
use bekstaudi::codepointinvliststringlist::CodePointInversionListAndStringList;
use bekstaudi::codepointtrie::trie_toml::CodePointTrieToml;
use bekstaudi::codepointtrie::{CodePointTrie, json, planes};
use refusing::refused_in_turn;
use serde_json::json;

#[test]
fn json_values() {
    let set = json!(["A-Z", "_", "\u{1F600}-\u{1F64F}"]);
    refused_in_turn("CodePointInversionList::from_json", || {
        CodePointInversionList::from_json(&set).ok()
    });
    let texts = json!({ "cp_inv_list": ["a", "x-z"], "str_list": ["abc", "xyz"] });
    refused_in_turn("CodePointInversionListAndStringList::from_json", || {
        CodePointInversionListAndStringList::from_json(&texts).ok()
    });
    let words = json!({ "data": [49, 97, 98, 32771] });
    refused_in_turn("Char16Trie::from_json", || Char16Trie::from_json(&words).ok());
    let planes = json::to_json(&planes::get_planes_trie()).expect("no memory");
    refused_in_turn("json::from_json", || json::from_json::<u8>(&planes).ok());
}

#[test]
fn toml_tables() {
    let cells = "0, ".repeat(64);
    let text = format!(
        "index = [{cells}]\ndata_8 = [{cells}7, 9]\nhighStart = 4096\nshifted12HighStart = 1\n\
         type = 1\nvalueWidth = 2\nindex3NullOffset = 32767\ndataNullOffset = 3\nnullValue = 5\n"
    );
    let table: toml::value::Table = toml::from_str(&text).expect("no table");
    refused_in_turn("CodePointTrieToml::from_table", || CodePointTrieToml::from_table(&table).ok());
    let read = CodePointTrieToml::from_table(&table).expect("no memory");
    refused_in_turn("CodePointTrie::try_from", || CodePointTrie::<u8>::try_from(&read).ok());
}
