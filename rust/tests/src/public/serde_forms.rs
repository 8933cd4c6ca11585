//! The forms of serde are those of the crate `icu_collections`: the expected ones are worked out from
//! its source, as each says. Damaged forms are errors, and what is read is valid.
#![cfg(feature = "serde")]

use bekstaudi::char16trie::Char16Trie;
use bekstaudi::codepointinvlist::CodePointInversionList;
use bekstaudi::codepointinvliststringlist::CodePointInversionListAndStringList;
use bekstaudi::codepointtrie::planes::get_planes_trie;
use bekstaudi::codepointtrie::toml::CodePointTrieToml;
use bekstaudi::codepointtrie::{
    CodePointTrie, CodePointTrieBuilder, CodePointTrieHeader, TrieType, TrieValue,
};
use bekstaudi::zerovec::ZeroVec;
use serde::{Deserialize, Serialize};
use std::fmt::Debug;

bekstaudi::trie_values! {
    #[derive(Serialize, Deserialize)]
    enum Kind: u8 {
        Other = 0,
        Letter = 1,
        Digit = 7,
    }
}

fn set_of(ends: &[u32]) -> CodePointInversionList<'static> {
    CodePointInversionList::try_from_u32_inversion_list_slice(ends).expect("no set")
}

fn texts_of(texts: &[&str]) -> CodePointInversionListAndStringList<'static> {
    texts.iter().copied().collect()
}

/// The length that bincode writes before bytes: 64 bits, lowest byte first.
fn with_length(bytes: &[u8]) -> Vec<u8> {
    [&(bytes.len() as u64).to_le_bytes(), bytes].concat()
}

/// Checks that a value has these forms, in both directions.
fn check<'de, T>(value: &T, json: &'de str, bytes: &'de [u8])
where
    T: Serialize + Deserialize<'de> + PartialEq + Debug,
{
    assert_eq!(serde_json::to_string(value).unwrap(), json);
    assert_eq!(bincode::serialize(value).unwrap(), bytes);
    assert_eq!(serde_json::from_str::<T>(json).unwrap(), *value);
    assert_eq!(bincode::deserialize::<T>(bytes).unwrap(), *value);
}

/// A trie whose values come in each block of 64, with the high value and the error value.
fn small<T: TrieValue>(null_value: u32, values: [T; 64]) -> CodePointTrie<'static, T> {
    let header = CodePointTrieHeader {
        high_start: 0x1000,
        shifted12_high_start: 1,
        index3_null_offset: 0x7FFF,
        data_null_offset: 0xF_FFFF,
        null_value,
        trie_type: TrieType::Small,
    };
    CodePointTrie::alloc_from_slices(header, &[0; 64], &values).expect("no trie")
}

// cptrie.rs 31 and 143 derive both traits: a variant is its name, or 32 bits with its index; the
// fields of a struct come in their order, each number with its own width.
#[test]
fn header_and_trie_type() {
    check(&TrieType::Fast, r#""Fast""#, &[0, 0, 0, 0]);
    check(&TrieType::Small, r#""Small""#, &[1, 0, 0, 0]);
    let header = small(7, [7u8; 64]).parts().0;
    let json = concat!(
        r#"{"high_start":4096,"shifted12_high_start":1,"index3_null_offset":32767,"#,
        r#""data_null_offset":1048575,"null_value":7,"trie_type":"Small"}"#
    );
    let bytes =
        [0, 0x10, 0, 0, 1, 0, 0xFF, 0x7F, 0xFF, 0xFF, 0xF, 0, 7, 0, 0, 0, 1, 0, 0, 0];
    check(&header, json, &bytes);
}

/// Checks the forms of a trie of `small`: serde.rs 11 has the header, the index and the data. Vectors
/// are sequences of the values' own forms, or their bytes after a length.
fn check_small<T>(trie: &CodePointTrie<'static, T>, values: &str, data: &[u8])
where
    T: TrieValue + Serialize + for<'de> Deserialize<'de> + Debug,
{
    let null = trie.parts().0.null_value;
    let json = format!(
        concat!(
            r#"{{"header":{{"high_start":4096,"shifted12_high_start":1,"index3_null_offset":32767,"#,
            r#""data_null_offset":1048575,"null_value":{},"trie_type":"Small"}},"#,
            r#""index":[{}],"data":[{}]}}"#
        ),
        null,
        ["0"; 64].join(","),
        values
    );
    let mut bytes = vec![0, 0x10, 0, 0, 1, 0, 0xFF, 0x7F, 0xFF, 0xFF, 0xF, 0];
    bytes.extend(null.to_le_bytes());
    bytes.extend([1, 0, 0, 0]);
    bytes.extend(with_length(&[0; 128]));
    bytes.extend(with_length(data));
    check(trie, &json, &bytes);
}

#[test]
fn tries_of_each_type() {
    check_small(&small(7, [7u8; 64]), &["7"; 64].join(","), &[7; 64]);
    check_small(&small(0x102, [0x102u16; 64]), &["258"; 64].join(","), &[2, 1].repeat(64));
    let (number, bytes) = (0x0102_0304u32, [4, 3, 2, 1].repeat(64));
    check_small(&small(number, [number; 64]), &["16909060"; 64].join(","), &bytes);
    check_small(&small(u32::MAX, [-1i8; 64]), &["-1"; 64].join(","), &[0xFF; 64]);
    check_small(&small(u32::MAX - 1, [-2i16; 64]), &["-2"; 64].join(","), &[0xFE, 0xFF].repeat(64));
    let bytes = [0xFE, 0xFF, 0xFF, 0xFF].repeat(64);
    check_small(&small(u32::MAX - 1, [-2i32; 64]), &["-2"; 64].join(","), &bytes);
    // A character is a text of its own, or three bytes.
    let bytes = [0, 0xF6, 1].repeat(64);
    check_small(&small(0x1_F600, ['\u{1F600}'; 64]), &["\"\u{1F600}\""; 64].join(","), &bytes);
    check_small(&small(1, [Kind::Letter; 64]), &["\"Letter\""; 64].join(","), &[1; 64]);
}

// The header that a test of the Rust crate expects of the planes, which also expects 2,336 bytes of
// the index.
#[test]
fn planes() {
    let bytes = bincode::serialize(&get_planes_trie()).unwrap();
    let head = [0, 0, 0x10, 0, 0, 1, 2, 0, 0, 0, 0, 0, 0, 0, 0, 0, 1, 0, 0, 0];
    assert_eq!(bytes[..20], head);
    assert_eq!(bytes[20..28], 2336u64.to_le_bytes());
    let trie: CodePointTrie<u8> = bincode::deserialize(&bytes).unwrap();
    assert_eq!(trie, get_planes_trie());
}

// cpinvlist.rs 111-169: a text for each range. Its boundaries take three bytes each.
#[test]
fn sets() {
    check(&set_of(&[]), "[]", &with_length(&[]));
    let bytes = with_length(&[0x41, 0, 0, 0x46, 0, 0, 0x4B, 0, 0, 0x4C, 0, 0]);
    check(&set_of(&[0x41, 0x46, 0x4B, 0x4C]), r#"["A-E","K"]"#, &bytes);
    // Surrogates are spelled; from_str_radix reads digits of either case.
    let bytes = with_length(&[0xAB, 0xDF, 0, 0xFF, 0xDF, 0]);
    check(&set_of(&[0xDFAB, 0xDFFF]), r#"["U+DFAB-U+DFFE"]"#, &bytes);
    let lower: CodePointInversionList = serde_json::from_str(r#"["U+dfab-U+dffe"]"#).unwrap();
    assert_eq!(lower, set_of(&[0xDFAB, 0xDFFF]));
    // serde_json escapes the quote and the control character, and writes all others.
    let bytes = with_length(&[0, 0, 0, 1, 0, 0, 0x22, 0, 0, 0x23, 0, 0, 0xFF, 0xFF, 0x10, 0, 0, 0x11]);
    let json = "[\"\\u0000\",\"\\\"\",\"\u{10FFFF}\"]";
    check(&set_of(&[0, 1, 0x22, 0x23, 0x10_FFFF, 0x11_0000]), json, &bytes);
    // A minus that starts or ends a range.
    check(&set_of(&[0x2D, 0x30]), r#"["--/"]"#, &with_length(&[0x2D, 0, 0, 0x30, 0, 0]));
}

// stringlist 32 derives both traits, with the code points first. zerovec packs strings as their
// number, the offset of each but the first, in 16 bits each, and the texts; no string has no byte.
#[test]
fn sets_with_strings() {
    let code_points = with_length(&[0x61, 0, 0, 0x62, 0, 0]);
    let join = |strings: &[u8]| [code_points.clone(), with_length(strings)].concat();
    check(&texts_of(&["a"]), r#"{"cp_inv_list":["a"],"str_list":[]}"#, &join(&[]));
    let json = r#"{"cp_inv_list":["a"],"str_list":["abc"]}"#;
    check(&texts_of(&["a", "abc"]), json, &join(b"\x01\0abc"));
    let json = r#"{"cp_inv_list":["a"],"str_list":["","abc","xy"]}"#;
    check(&texts_of(&["xy", "a", "", "abc"]), json, &join(b"\x03\0\0\0\x03\0abcxy"));
    let long = "x".repeat(0x1_0000);
    assert!(bincode::serialize(&texts_of(&[&long, "yy"])).is_err());
    assert!(bincode::serialize(&texts_of(&[&long])).is_ok());
}

// trie.rs 75 and 82: a struct with the units, which a reader may also find as `trie_data`.
#[test]
fn unit_tries() {
    let trie = Char16Trie::new(ZeroVec::alloc_from_slice(&[0x31, 0x61, 0x62, 0x8003]).unwrap());
    let bytes = with_length(&[0x31, 0, 0x61, 0, 0x62, 0, 3, 0x80]);
    check(&trie, r#"{"data":[49,97,98,32771]}"#, &bytes);
    let json = r#"{"trie_data":[49,97,98,32771]}"#;
    assert_eq!(serde_json::from_str::<Char16Trie>(json).unwrap(), trie);
}

// toml.rs 21: the keys of ICU4C, in any format.
#[test]
fn tables_of_icu() {
    let head = r#""highStart":4096,"shifted12HighStart":1,"type":1,"valueWidth":2,"#;
    let tail = r#""index3NullOffset":32767,"dataNullOffset":1048575,"nullValue":7"#;
    let (index, data) = (["0"; 64].join(","), ["7"; 64].join(","));
    let json = format!(r#"{{"index":[{index}],"data_8":[{data}],"name":"x",{head}{tail}}}"#);
    let table: CodePointTrieToml = serde_json::from_str(&json).unwrap();
    let trie = CodePointTrie::<u8>::try_from(&table).unwrap();
    assert_eq!(trie, small(7, [7; 64]));
    for key in ["index\"", "highStart", "shifted12HighStart", "type", "valueWidth"] {
        let damaged = json.replacen(key, &format!("x{key}"), 1);
        assert!(serde_json::from_str::<CodePointTrieToml>(&damaged).is_err(), "{key}");
    }
    let damaged: CodePointTrieToml = serde_json::from_str(&json.replacen("data_8", "x", 1)).unwrap();
    assert!(CodePointTrie::<u8>::try_from(&damaged).is_err());
    assert!(serde_json::from_str::<CodePointTrieToml>(&json.replacen("[7,", "[256,", 1)).is_err());
    assert!(serde_json::from_str::<CodePointTrieToml>("{}").is_err());
}

#[test]
fn binary_forms_are_borrowed() {
    let bytes = bincode::serialize(&get_planes_trie()).unwrap();
    let trie: CodePointTrie<u8> = bincode::deserialize(&bytes).unwrap();
    let (_, index, data) = trie.parts();
    let within = |part: &[u8]| bytes.as_ptr_range().contains(&part.as_ptr());
    assert!(within(index.as_bytes()) && within(data.as_bytes()));
    let bytes = bincode::serialize(&set_of(&[1, 2])).unwrap();
    let set: CodePointInversionList = bincode::deserialize(&bytes).unwrap();
    assert!(bytes.as_ptr_range().contains(&set.as_inversion_list().as_bytes().as_ptr()));
    let bytes = bincode::serialize(&texts_of(&["a", "abc"])).unwrap();
    let set: CodePointInversionListAndStringList = bincode::deserialize(&bytes).unwrap();
    assert!(bytes.as_ptr_range().contains(&set.code_points().as_inversion_list().as_bytes().as_ptr()));
    let trie = Char16Trie::new(ZeroVec::alloc_from_slice(&[0x30, 0x61, 0x8001]).unwrap());
    let bytes = bincode::serialize(&trie).unwrap();
    let same: Char16Trie = bincode::deserialize(&bytes).unwrap();
    assert!(bytes.as_ptr_range().contains(&same.data.as_bytes().as_ptr()));
}

/// Reads bytes that are never freed, since what is read may borrow them.
fn read<T: Deserialize<'static>>(bytes: &[u8]) -> Option<T> {
    bincode::deserialize(Box::leak(bytes.into())).ok()
}

/// Reads damaged bytes: each byte with each other value, and each length. What is read is written back
/// as it was, and `valid` holds.
fn damage<T: Serialize + Deserialize<'static>>(bytes: &[u8], valid: impl Fn(&T) -> bool) {
    for length in 0..bytes.len() {
        assert!(read::<T>(&bytes[..length]).is_none(), "{length} bytes");
    }
    let mut count = 0;
    for place in 0..bytes.len() {
        let mut damaged = bytes.to_vec();
        for byte in 0..=255 {
            damaged[place] = byte;
            let Some(value) = read::<T>(&damaged) else {
                continue;
            };
            count += 1;
            assert!(valid(&value), "{damaged:?}");
            // bincode ignores bytes after the value.
            assert!(damaged.starts_with(&bincode::serialize(&value).unwrap()), "{damaged:?}");
        }
    }
    assert!(bytes.len() <= count && count < 256 * bytes.len());
}

/// Whether the parts of a trie are those of a trie.
fn is_trie<T: TrieValue>(trie: &CodePointTrie<'_, T>) -> bool {
    let (header, index, data) = trie.parts();
    let data = ZeroVec::parse_bytes(data.as_bytes());
    for c in [0, 0xFFF, 0x1000, 0x10_FFFF, u32::MAX] {
        let _ = trie.get32(c);
    }
    data.is_ok_and(|data| CodePointTrie::<T>::try_new(header, index.as_zerovec(), data).is_ok())
}

#[test]
fn damaged_bytes() {
    let bytes = bincode::serialize(&small(7, [7u8; 64])).unwrap();
    damage::<CodePointTrie<u8>>(&bytes, is_trie);
    let bytes = bincode::serialize(&small(1, [Kind::Letter; 64])).unwrap();
    damage::<CodePointTrie<Kind>>(&bytes, is_trie);
    let bytes = bincode::serialize(&small(0xD7FF, ['\u{D7FF}'; 64])).unwrap();
    damage::<CodePointTrie<char>>(&bytes, is_trie);
    let bytes = bincode::serialize(&set_of(&[0x41, 0x46, 0x10_FFFF, 0x11_0000])).unwrap();
    let is_set = |it: &CodePointInversionList| {
        CodePointInversionList::try_from_inversion_list(it.as_inversion_list().as_zerovec()).is_ok()
    };
    damage::<CodePointInversionList>(&bytes, is_set);
    let bytes = bincode::serialize(&texts_of(&["a", "", "ab", "\u{E9}x", "xyz"])).unwrap();
    let is_text_set = |it: &CodePointInversionListAndStringList| {
        let strings = it.strings().to_vec();
        is_set(it.code_points())
            && CodePointInversionListAndStringList::try_from(it.code_points().clone(), strings).is_ok()
    };
    damage::<CodePointInversionListAndStringList>(&bytes, is_text_set);
    let trie = Char16Trie::new(ZeroVec::alloc_from_slice(&[0x30, 0x61, 0x8001]).unwrap());
    damage::<Char16Trie>(&bincode::serialize(&trie).unwrap(), |_| true);
}

/// Reads JSON that is never freed.
fn read_json<T: Deserialize<'static>>(json: String) -> Option<T> {
    serde_json::from_str(Box::leak(json.into())).ok()
}

/// Reads damaged JSON: each character replaced, and removed. What is read is read again from what it is
/// written as.
fn damage_json<T: Serialize + Deserialize<'static> + PartialEq + Debug>(json: &str) {
    let chars: Vec<char> = json.chars().collect();
    let mut count = 0;
    for place in 0..chars.len() {
        for other in ["", "0", "9", "-", "\"", ",", "[", "}", "U+", "D800", "\u{E9}", "\\", "null", "1e9"] {
            let start: String = chars[..place].iter().collect();
            let end: String = chars[place + 1..].iter().collect();
            if let Some(value) = read_json::<T>(format!("{start}{other}{end}")) {
                let again = serde_json::to_string(&value).unwrap();
                assert_eq!(read_json::<T>(again).as_ref(), Some(&value));
                count += 1;
            }
        }
    }
    assert!(count < chars.len() * 14);
}

#[test]
fn damaged_json() {
    damage_json::<CodePointTrie<u8>>(&serde_json::to_string(&small(7, [7u8; 64])).unwrap());
    damage_json::<CodePointTrie<Kind>>(&serde_json::to_string(&small(1, [Kind::Digit; 64])).unwrap());
    damage_json::<CodePointInversionList>(r#"["A-E","K","U+D800-U+DBFF"]"#);
    damage_json::<CodePointInversionListAndStringList>(r#"{"cp_inv_list":["a"],"str_list":["abc","xy"]}"#);
    damage_json::<Char16Trie>(r#"{"data":[49,97,98,32771]}"#);
    let no_sets = [
        "[65,70,98775,85]", r#"["B-A"]"#, r#"["A","A"]"#, r#"["A","B"]"#, r#"["B","A"]"#, r#"["AB"]"#,
        r#"["U+D80"]"#, r#"["U+110000"]"#, r#"[""]"#, "{}", "null", r#""A""#, r#"["A-"]"#, "[",
    ];
    for json in no_sets {
        assert!(serde_json::from_str::<CodePointInversionList>(json).is_err(), "{json}");
    }
    for strings in [r#"["a"]"#, r#"["ab","ab"]"#, r#"["b2","a2"]"#, "[1]", "null", "{}"] {
        let json = format!(r#"{{"cp_inv_list":[],"str_list":{strings}}}"#);
        assert!(serde_json::from_str::<CodePointInversionListAndStringList>(&json).is_err(), "{json}");
    }
    for json in ["{}", r#"{"data":[65536]}"#, r#"{"data":[-1]}"#, r#"{"data":["a"]}"#, "[[1],[2]]"] {
        assert!(serde_json::from_str::<Char16Trie>(json).is_err(), "{json}");
    }
    for json in [r#""fast""#, "0", r#"{"Fast":1}"#] {
        assert!(serde_json::from_str::<TrieType>(json).is_err(), "{json}");
    }
}

// Strings that are not a set's, and bytes that are no strings.
#[test]
fn damaged_strings() {
    let strings_of = |strings: &[u8]| {
        let bytes = [with_length(&[]), with_length(strings)].concat();
        read::<CodePointInversionListAndStringList>(&bytes).map(|it| it.strings().to_vec())
    };
    assert_eq!(strings_of(b"\x02\0\x02\0abcd").unwrap(), ["ab", "cd"]);
    for strings in [
        &b"\0"[..], b"\0\0", b"\x01", b"\x01\0a", b"\x02\0\x01\0ab", b"\x02\0\x02\0abab", b"\x02\0\x02\0cdab",
        b"\x02\0\x05\0abcd", b"\x03\0\x02\0\x01\0abcd", b"\x01\0\xFF\xFF", b"\xFF\xFF", b"\x02\0\x01\0\xC3\xA9xy",
    ] {
        assert!(strings_of(strings).is_none(), "{strings:?}");
    }
}

// What to_json writes, serde writes too, except signed values and characters in tries.
#[cfg(feature = "json")]
#[test]
fn values_of_json() {
    use bekstaudi::codepointtrie::json;
    let set = set_of(&[0, 1, 0x22, 0x23, 0xD800, 0xE000, 0x10_FFFF, 0x11_0000]);
    assert_eq!(serde_json::to_value(&set).unwrap(), set.to_json().unwrap());
    let texts = texts_of(&["a", "abc", ""]);
    assert_eq!(serde_json::to_value(&texts).unwrap(), texts.to_json().unwrap());
    let planes = get_planes_trie();
    assert_eq!(serde_json::to_value(&planes).unwrap(), json::to_json(&planes).unwrap());
    let trie = Char16Trie::new(ZeroVec::alloc_from_slice(&[0x30, 0x61, 0x8001]).unwrap());
    assert_eq!(serde_json::to_value(&trie).unwrap(), trie.to_json().unwrap());
    let letters = CodePointTrieBuilder::new('a', 'b', TrieType::Small).build();
    assert_ne!(serde_json::to_value(&letters).unwrap(), json::to_json(&letters).unwrap());
}
