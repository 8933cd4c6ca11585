//# amend get
use bekstaudi::codepointtrie::{CodePointTrieBuilder, TrieType};

let mut builder = CodePointTrieBuilder::new(0u8, 9, TrieType::Fast);
builder.set_range_value(0x41..=0x5A, 1);
assert_eq!(builder.get(0x41), 1);
assert_eq!(builder.get(0x5B), 0);
assert_eq!(builder.get(0x110000), 9);
//# amend get_range
use bekstaudi::codepointtrie::{CodePointTrieBuilder, TrieType};

let mut builder = CodePointTrieBuilder::new(0u8, 9, TrieType::Fast);
builder.set_range_value(0x41..=0x5A, 1);
let range = builder.get_range(0x50).expect("a code point");
assert_eq!((range.range, range.value), (0x50..=0x5A, 1));
//# amend try_from_trie
use bekstaudi::codepointtrie::CodePointTrieBuilder;
use bekstaudi::codepointtrie::planes::get_planes_trie;

let mut builder = CodePointTrieBuilder::try_from_trie(&get_planes_trie())?;
builder.try_set_value(0x41, 7)?;
let amended = builder.try_build()?;
assert_eq!(amended.get('A'), 7);
assert_eq!(amended.get32(0x1F600), 1);
//# build try_build
use bekstaudi::codepointtrie::{CodePointTrieBuilder, TrieType};

let mut builder = CodePointTrieBuilder::new(0u16, 9, TrieType::Small);
builder.try_set_value(0x20000, 10)?;
let trie = builder.try_build()?;
assert_eq!(trie.get32(0x20000), 10);
assert_eq!(trie.get32(0x1FFFF), 0);
//# build try_build_from_writes
use bekstaudi::codepointtrie::{TrieType, Write, try_build_from_writes};

let writes = [Write::Range(0x41..=0x5A, 1u8), Write::One(0x41, 0)];
let trie = try_build_from_writes(0, 9, TrieType::Fast, &writes)?;
assert_eq!(trie.get32(0x41), 0);
assert_eq!(trie.get32(0x5A), 1);
assert_eq!(trie.get32(0x110000), 9);
//# builder CodePointTrieBuilder
use bekstaudi::codepointtrie::{CodePointTrieBuilder, TrieType};

let mut builder = CodePointTrieBuilder::new(0u8, 9, TrieType::Fast);
builder.set_range_value(0x41..=0x5A, 1);
builder.set_value(0x41, 0);
let trie = builder.build();
assert_eq!(trie.get32(0x41), 0);
assert_eq!(trie.get32(0x42), 1);
assert_eq!(trie.get32(0x110000), 9);
//# builder try_set_value
use bekstaudi::codepointtrie::{CodePointTrieBuilder, TrieType};

let mut builder = CodePointTrieBuilder::new(0u8, 9, TrieType::Fast);
builder.try_set_value(0x1234, 7)?;
builder.try_set_value(0x110000, 8)?;
assert_eq!(builder.get(0x1234), 7);
assert_eq!(builder.get(0x110000), 9);
//# builder try_set_range_value
use bekstaudi::codepointtrie::{CodePointTrieBuilder, TrieType};

let mut builder = CodePointTrieBuilder::new(0u8, 9, TrieType::Fast);
builder.try_set_range_value(0x1000..=0x1FFF, 8)?;
builder.try_set_range_value(0x10FFFF..=0x110005, 1)?;
assert_eq!(builder.get(0x1FFF), 8);
assert_eq!(builder.get(0x10FFFF), 1);
//# builder apply
use bekstaudi::codepointtrie::{CodePointTrieBuilder, TrieType, Write};

let mut builder = CodePointTrieBuilder::new(0u8, 9, TrieType::Fast);
builder.apply(&[Write::Range(0x1FFF..=0x2000, 11), Write::One(0x2000, 10)])?;
assert_eq!(builder.get(0x1FFF), 11);
assert_eq!(builder.get(0x2000), 10);
