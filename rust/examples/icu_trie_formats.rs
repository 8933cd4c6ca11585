//# json mod
use bekstaudi::codepointtrie::{CodePointTrieBuilder, TrieType, json};

let mut builder = CodePointTrieBuilder::new(0u8, 9, TrieType::Small);
builder.set_range_value(0x41..=0x5A, 1);
let trie = builder.build();
let text = json::to_json(&trie)?.to_string();
assert_eq!(json::from_json::<u8>(&serde_json::from_str(&text)?)?, trie);
//# json from_json
use bekstaudi::codepointtrie::json::{from_json, to_json};
use bekstaudi::codepointtrie::planes::get_planes_trie;

let value = to_json(&get_planes_trie())?;
let trie = from_json::<u8>(&value)?;
assert_eq!(trie.get32(0x1F600), 1);
//# json to_json
use bekstaudi::codepointtrie::json::to_json;
use bekstaudi::codepointtrie::planes::get_planes_trie;

let value = to_json(&get_planes_trie())?;
assert_eq!(value["header"]["trie_type"], "Small");
//# planes get_planes_trie
use bekstaudi::codepointtrie::planes::get_planes_trie;

let planes = get_planes_trie();
assert_eq!(planes.get32(0x1F600), 1);
assert_eq!(planes.get32(0x10FFFF), 16);
//# trie_toml/tables from_table
use bekstaudi::codepointtrie::CodePointTrie;
use bekstaudi::codepointtrie::trie_toml::CodePointTrieToml;

// The value 7 for each code point.
let text = format!(
    "index = [{}]\ndata_8 = [{}]\nindexLength = 64\ndataLength = 128\n\
     highStart = 0\nshifted12HighStart = 0\ntype = 1\nvalueWidth = 2\n\
     index3NullOffset = 0x7fff\ndataNullOffset = 0\nnullValue = 7\n",
    "0, ".repeat(64),
    "7, ".repeat(128)
);
let read = CodePointTrieToml::from_table(&toml::from_str(&text)?)?;
let trie = CodePointTrie::<u8>::try_from(&read)?;
assert_eq!(trie.get('a'), 7);
