//! JSON: values are written as the docs say, and can be read again.
#![cfg(feature = "json")]

use bekstaudi::char16trie::{Char16JsonError, Char16Trie};
use bekstaudi::codepointinvlist::{CodePointInversionList, SetJsonError};
use bekstaudi::codepointinvliststringlist::CodePointInversionListAndStringList;
use bekstaudi::codepointtrie::{json, planes};
use serde_json::json;

#[test]
fn sets() {
    let set: CodePointInversionList = ('A'..='Z').chain(['_']).collect();
    let value = set.to_json().expect("no memory");
    assert_eq!(value, json!(["A-Z", "_"]));
    assert_eq!(CodePointInversionList::from_json(&value), Ok(set));
    assert_eq!(CodePointInversionList::from_json(&json!(7)), Err(SetJsonError::NotAnArray));
}

#[test]
fn sets_with_texts() {
    let set: CodePointInversionListAndStringList = ["a", "abc"].into_iter().collect();
    let value = set.to_json().expect("no memory");
    assert_eq!(value, json!({ "cp_inv_list": ["a"], "str_list": ["abc"] }));
    assert!(CodePointInversionListAndStringList::from_json(&value).is_ok_and(|it| it == set));
}

#[test]
fn unit_tries() {
    let value = json!({ "data": [49, 97, 98, 32771] });
    let trie = Char16Trie::from_json(&value).expect("no trie");
    assert_eq!(trie.iter2().collect::<Vec<_>>(), [("ab".into(), 3)]);
    assert_eq!(trie.to_json().expect("no memory"), value);
    assert_eq!(Char16Trie::from_json(&json!({})).err(), Some(Char16JsonError::Shape));
}

#[test]
fn tries() {
    let value = json::to_json(&planes::get_planes_trie()).expect("no memory");
    assert_eq!(value["header"]["trie_type"], "Small");
    let trie = json::from_json::<u8>(&value).expect("no trie");
    for c in (0..0x11_0000).step_by(0x777) {
        assert_eq!(u32::from(trie.get32(c)), c >> 16);
    }
}
