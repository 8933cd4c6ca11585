//# typed Typed
use bekstaudi::codepointtrie::{CodePointTrieBuilder, TrieType, Typed, TypedCodePointTrie};

let mut builder = CodePointTrieBuilder::new(0u8, 9, TrieType::Fast);
builder.set_value(0x41, 1);
let trie = builder.build();
// A look-up in a typed trie does not test the type again.
let count = |text: &str| match trie.as_typed_ref() {
    Typed::Fast(fast) => text.chars().filter(|c| fast.get(*c) == 1).count(),
    Typed::Small(small) => text.chars().filter(|c| small.get(*c) == 1).count(),
};
assert_eq!(count("ABA"), 2);
//# coherence is_coherent
use bekstaudi::codepointtrie::{CodePointTrie, CodePointTrieHeader, TrieType};

// No block is as the header says the null block is, so ranges might differ from look-ups.
let header = CodePointTrieHeader {
    high_start: 0x1000,
    shifted12_high_start: 1,
    index3_null_offset: 0,
    data_null_offset: 0,
    null_value: 9,
    trie_type: TrieType::Small,
};
let (index, data) = ([0; 64], [0u8; 128]);
let trie = CodePointTrie::alloc_from_slices(header, &index, &data)?;
assert!(!trie.is_coherent());
//# cptrie CodePointTrie
use bekstaudi::codepointtrie::{CodePointTrieBuilder, TrieType};

// The default value 0, the error value 9, and 1 for the letters A to Z.
let mut builder = CodePointTrieBuilder::new(0u8, 9, TrieType::Small);
builder.set_range_value(0x41..=0x5A, 1);
let trie = builder.build();
assert_eq!(trie.get('A'), 1);
assert_eq!(trie.get32(0x5B), 0);
assert_eq!(trie.get32(0x110000), 9);
let letters = trie.get_set_for_value(1);
assert_eq!(letters.iter_ranges().collect::<Vec<_>>(), [0x41..=0x5A]);
//# cptrie try_new
use bekstaudi::codepointtrie::{CodePointTrie, CodePointTrieHeader, TrieType};

let header = CodePointTrieHeader {
    high_start: 0x1000,
    shifted12_high_start: 1,
    index3_null_offset: 0,
    data_null_offset: 0,
    null_value: 0,
    trie_type: TrieType::Small,
};
let index = [0; 64].into_iter().collect();
let data = (1u8..=64).collect();
let trie = CodePointTrie::try_new(header, index, data)?;
assert_eq!(trie.get32(0x41), 2);
assert_eq!(trie.get32(0x1000), 63);
assert_eq!(trie.get32(0x110000), 64);
//# cptrie get32
use bekstaudi::codepointtrie::{CodePointTrieBuilder, TrieType};

let trie = CodePointTrieBuilder::new(0u8, 9, TrieType::Fast).build();
assert_eq!(trie.get32(0x10FFFF), 0);
assert_eq!(trie.get32(u32::MAX), 9);
//# map_value try_alloc_map_value_fallible
use bekstaudi::codepointtrie::planes::get_planes_trie;
use std::convert::Infallible;

let planes = get_planes_trie();
let next = planes.try_alloc_map_value_fallible(|x| Ok::<u16, Infallible>(u16::from(x) + 1))?;
assert_eq!(next.get32(0x1F600), 2);
//# mapped_ranges iter_ranges_mapped
use bekstaudi::codepointtrie::planes::get_planes_trie;

let planes = get_planes_trie();
let ranges: Vec<_> = planes.iter_ranges_mapped(|x| x != 0).collect();
assert_eq!(ranges.len(), 2);
assert_eq!(ranges[0].range, 0..=0xFFFF);
assert_eq!(ranges[1].range, 0x10000..=0x10FFFF);
//# ranges iter_ranges
use bekstaudi::codepointtrie::{CodePointTrieBuilder, TrieType};

let mut builder = CodePointTrieBuilder::new(0u8, 9, TrieType::Small);
builder.set_range_value(0x41..=0x5A, 1);
let trie = builder.build();
let ranges: Vec<_> = trie.iter_ranges().map(|it| (it.range, it.value)).collect();
assert_eq!(ranges, [(0..=0x40, 0), (0x41..=0x5A, 1), (0x5B..=0x10FFFF, 0)]);
//# ranges try_get_set_for_value
use bekstaudi::codepointtrie::{CodePointTrieBuilder, TrieType};

let mut builder = CodePointTrieBuilder::new(0u8, 9, TrieType::Small);
builder.set_range_value(0x41..=0x5A, 1);
let letters = builder.build().try_get_set_for_value(1)?;
assert!(letters.contains('Z') && !letters.contains32(0x5B));
//# typed mod
//# typed TypedCodePointTrie
use bekstaudi::codepointtrie::planes::get_planes_trie;
use bekstaudi::codepointtrie::{Typed, TypedCodePointTrie};

fn sum_of<'trie>(trie: &impl TypedCodePointTrie<'trie, u8>, text: &str) -> u32 {
    text.chars().map(|c| u32::from(trie.get(c))).sum()
}

// The type is tested once, before the loop.
let trie = get_planes_trie();
let sum = match trie.as_typed_ref() {
    Typed::Fast(trie) => sum_of(&trie, "a\u{1F600}"),
    Typed::Small(trie) => sum_of(&trie, "a\u{1F600}"),
};
assert_eq!(sum, 1);
