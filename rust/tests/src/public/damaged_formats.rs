//! Damaged JSON and TOML. Values changed at random are rejected, or are read. What is read works
//! without a panic, and is the same after it is written and read again.
#![cfg(all(feature = "json", feature = "toml"))]

mod random;

use bekstaudi::char16trie::Char16Trie;
use bekstaudi::codepointinvlist::CodePointInversionList;
use bekstaudi::codepointinvliststringlist::CodePointInversionListAndStringList;
use bekstaudi::codepointtrie::trie_toml::CodePointTrieToml;
use bekstaudi::codepointtrie::{CodePointTrie, CodePointTrieHeader, json, planes};
use random::Random;
use serde_json::{Value, json};

const ROUNDS: usize = 10_000;

/// What replaces a value.
fn other(random: &mut Random) -> Value {
    let number = [0, 1, 255, 256, 0xFFFF, 0x1_0000, u64::from(u32::MAX), u64::MAX];
    let text = ["", "A", "A-Z", "Z-A", "U+1F600", "U+", "A-", "U+D800-U+DFFF", "abc", "Fast"];
    match random.below(6) {
        0..3 => json!(random.one_of(&number)),
        3 | 4 => json!(random.one_of(&text)),
        _ => [json!(null), json!(-1), json!(0.5), json!([]), json!({}), json!(true)]
            [random.below(6)]
        .clone(),
    }
}

/// Changes a value anywhere inside this one, or removes or doubles an item of a list.
fn damage(random: &mut Random, value: &mut Value) {
    match value {
        Value::Array(list) if !list.is_empty() && random.below(12) > 0 => {
            let place = random.below(list.len());
            match random.below(6) {
                0 => drop(list.remove(place)),
                1 => list.insert(place, list[place].clone()),
                _ => damage(random, &mut list[place]),
            }
        }
        Value::Object(object) if !object.is_empty() && random.below(12) > 0 => {
            let key = object.keys().nth(random.below(object.len())).expect("no key").clone();
            if random.below(6) == 0 {
                object.remove(&key);
            } else {
                damage(random, &mut object[&key]);
            }
        }
        _ => *value = other(random),
    }
}

/// Calls `is_read` with `ROUNDS` damaged values. It returns whether it could read one.
fn tried(seed: u64, whole: &Value, is_read: impl Fn(&Value, &mut Random) -> bool) {
    let mut random = Random(seed);
    let mut taken = 0;
    for _ in 0..ROUNDS {
        let mut value = whole.clone();
        damage(&mut random, &mut value);
        taken += usize::from(is_read(&value, &mut random));
    }
    assert!(taken > 100 && taken < ROUNDS, "{taken}");
}

#[test]
fn sets() {
    tried(10, &json!(["A-Z", "_", "a-z", "\u{1F600}"]), |value, random| {
        let Ok(set) = CodePointInversionList::from_json(value) else { return false };
        let _ = set.contains32(random.below(0x11_0000) as u32);
        CodePointInversionList::from_json(&set.to_json().expect("no memory")) == Ok(set)
    });
    let whole = json!({ "cp_inv_list": ["A-Z", "_", "a-z"], "str_list": ["", "abc", "xyz"] });
    tried(11, &whole, |value, _| {
        let Ok(set) = CodePointInversionListAndStringList::from_json(value) else { return false };
        let written = set.to_json().expect("no memory");
        CodePointInversionListAndStringList::from_json(&written).is_ok_and(|it| it == set)
    });
}

#[test]
fn unit_tries() {
    tried(12, &json!({ "data": [0x30, 0x61, 0xb0, 0x62, 0x8002] }), |value, _| {
        let Ok(trie) = Char16Trie::from_json(value) else { return false };
        let _ = (trie.iter2().take(9).count(), trie.longest_match_str("abc"));
        Char16Trie::from_json(&trie.to_json().expect("no memory")).is_ok_and(|it| it == trie)
    });
}

/// Looks up random numbers in a trie.
fn ask(trie: &CodePointTrie<'_, u8>, random: &mut Random) {
    for _ in 0..4 {
        let c = random.below(0x11_1000) as u32;
        assert_eq!(trie.get32_u32(c), u32::from(trie.get32(c)));
        let _ = trie.get_range(c);
    }
}

/// The trie of the planes as JSON. Each part of the object is damaged equally often.
#[test]
fn tries() {
    let whole = json::to_json(&planes::get_planes_trie()).expect("no memory");
    tried(13, &whole, |value, random| {
        let Ok(trie) = json::from_json::<u8>(value) else { return false };
        ask(&trie, random);
        let written = json::to_json(&trie).expect("no memory");
        json::from_json::<u8>(&written).is_ok_and(|it| it == trie)
    });
}

/// The TOML table with these values. `None` if TOML cannot express one of them.
fn table_of(value: &Value) -> Option<toml::value::Table> {
    toml::from_str(&toml::to_string(value).ok()?).ok()
}

#[test]
fn toml_tables() {
    let (index, data) = (vec![0; 64], vec![5; 66]);
    let whole = json!({
        "index": index, "data_8": data, "highStart": 4096, "shifted12HighStart": 1, "type": 1,
        "valueWidth": 2, "index3NullOffset": 32767, "dataNullOffset": 3, "nullValue": 5,
    });
    tried(14, &whole, |value, random| {
        let Some(table) = table_of(value) else { return false };
        let Ok(read) = CodePointTrieToml::from_table(&table) else { return false };
        let _ = (CodePointTrieHeader::try_from(&read), read.data_slice().is_ok());
        let Ok(trie) = CodePointTrie::<u8>::try_from(&read) else { return false };
        ask(&trie, random);
        true
    });
}
