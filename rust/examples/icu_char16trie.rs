//# counted try_count_entries
use bekstaudi::char16trie::Char16Trie;

// The map of "a" to 1 and "ab" to 2.
let trie = Char16Trie::new([0x30, 0x61, 0xB0, 0x62, 0x8002].into_iter().collect());
assert_eq!(trie.try_count_entries()?, Some(2));
// Twenty branches, each of two units that both lead to the next one.
let mut units = [1, 0x61, 1, 0x62].repeat(20);
units.push(0x8001);
let trie = Char16Trie::new(units.into_iter().collect());
assert_eq!(trie.try_count_entries()?, Some(1 << 20));
//# cursor resume
use bekstaudi::char16trie::{Char16Trie, Char16TrieCursor};

let trie = Char16Trie::new([0x31, 0x61, 0x62, 0x8003].into_iter().collect());
let mut cursor = trie.cursor();
cursor.step('a');
let mut same = Char16TrieCursor::resume(trie.data.as_slice(), cursor.place());
same.step('b');
assert_eq!(same.value(), Some(3));
//# cursor entries
use bekstaudi::char16trie::Char16TrieBuilder;

let mut builder = Char16TrieBuilder::new();
builder.add_str("a", 1)?;
builder.add_str("ab", 2)?;
builder.add_str("b", 3)?;
let trie = builder.try_build()?;
let mut cursor = trie.cursor();
cursor.step('a');
let mut entries = cursor.entries();
assert!(entries.advance());
assert_eq!((entries.key(), entries.value()), ("", 1));
assert!(entries.advance());
assert_eq!((entries.key(), entries.value()), ("b", 2));
assert!(!entries.advance());
//# cursor try_next_units
use bekstaudi::char16trie::Char16TrieBuilder;

let mut builder = Char16TrieBuilder::new();
builder.add_str("a", 1)?;
builder.add_str("ab", 2)?;
builder.add_str("b", 3)?;
let trie = builder.try_build()?;
assert_eq!(trie.cursor().try_next_units()?, [0x61, 0x62]);
//# cursor try_unique_value
use bekstaudi::char16trie::Char16TrieBuilder;

let mut builder = Char16TrieBuilder::new();
builder.add_str("a", 1)?;
builder.add_str("ab", 1)?;
builder.add_str("b", 3)?;
let trie = builder.try_build()?;
let mut cursor = trie.cursor();
assert_eq!(cursor.try_unique_value()?, None);
cursor.step('a');
assert_eq!(cursor.try_unique_value()?, Some(1));
//# dictionary longest_match
use bekstaudi::char16trie::Char16TrieBuilder;

let mut builder = Char16TrieBuilder::new();
builder.add_str("a", 1)?;
builder.add_str("ab", 2)?;
let trie = builder.try_build()?;
assert_eq!(trie.longest_match(&[0x61, 0x62, 0x63]), Some((2, 2)));
assert_eq!(trie.longest_match(&[0x61, 0x63]), Some((1, 1)));
assert_eq!(trie.longest_match(&[0x62]), None);
//# dictionary matches
use bekstaudi::char16trie::Char16TrieBuilder;

let mut builder = Char16TrieBuilder::new();
builder.add_str("a", 1)?;
builder.add_str("ab", 2)?;
let trie = builder.try_build()?;
// The length and the value of each key.
let matches: Vec<_> = trie.matches(&[0x61, 0x62, 0x63]).collect();
assert_eq!(matches, [(1, 1), (2, 2)]);
//# iterator next
use bekstaudi::char16trie::{Char16TrieBuilder, TrieResult};

let mut builder = Char16TrieBuilder::new();
builder.add_str("a", 1)?;
builder.add_str("ab", 2)?;
let trie = builder.try_build()?;
let mut iterator = trie.iter();
assert_eq!(iterator.next('a'), TrieResult::Intermediate(1));
assert_eq!(iterator.next('b'), TrieResult::FinalValue(2));
assert_eq!(iterator.next('b'), TrieResult::NoMatch);
//# json from_json
use bekstaudi::char16trie::Char16Trie;

let trie = Char16Trie::from_json(&serde_json::json!({"data": [49, 97, 98, 32771]}))?;
assert_eq!(trie.iter2().next(), Some(("ab".into(), 3)));
//# listing try_advance
use bekstaudi::char16trie::Char16TrieBuilder;

let mut builder = Char16TrieBuilder::new();
builder.add_str("a", 1)?;
builder.add_str("ab", 2)?;
let trie = builder.try_build()?;
let mut entries = trie.entries();
let mut lengths = vec![];
while entries.try_advance()? {
    lengths.push((entries.key().len(), entries.value()));
}
assert_eq!(lengths, [(1, 1), (2, 2)]);
//# lookup get
use bekstaudi::char16trie::Char16TrieBuilder;

let mut builder = Char16TrieBuilder::new();
builder.add_str("a", 1)?;
builder.add_str("ab", 2)?;
let trie = builder.try_build()?;
assert_eq!(trie.get(&[0x61, 0x62]), Some(2));
assert_eq!(trie.get(&[0x62]), None);
//# text_units get_str
use bekstaudi::char16trie::Char16TrieBuilder;

let mut builder = Char16TrieBuilder::new();
builder.add_str("a", 1)?;
builder.add_str("ab", 2)?;
let trie = builder.try_build()?;
assert_eq!(trie.get_str("ab"), Some(2));
assert_eq!(trie.get_str("b"), None);
//# text_units longest_match_str
use bekstaudi::char16trie::Char16TrieBuilder;

let mut builder = Char16TrieBuilder::new();
builder.add_str("\u{E9}", 1)?;
builder.add_str("\u{E9}t\u{E9}", 2)?;
let trie = builder.try_build()?;
// There are 5 bytes before "s".
assert_eq!(trie.longest_match_str("\u{E9}t\u{E9}s"), Some((5, 2)));
assert_eq!(trie.longest_match_str("\u{E9}t"), Some((2, 1)));
//# mod
//# soundness try_is_trie
use bekstaudi::char16trie::Char16Trie;

// The map of "ab" to 3.
let trie = Char16Trie::new([0x31, 0x61, 0x62, 0x8003].into_iter().collect());
assert!(trie.try_is_trie()?);
// No node after the linear match.
let trie = Char16Trie::new([0x31, 0x61, 0x62].into_iter().collect());
assert!(!trie.try_is_trie()?);
// The units of the branch descend.
let trie = Char16Trie::new([1, 0x62, 0x8001, 0x61, 0x8002].into_iter().collect());
assert!(!trie.try_is_trie()?);
//# trie Char16Trie
use bekstaudi::char16trie::Char16Trie;

// The map of "ab" to 3, as a file stores it.
let trie = Char16Trie::new([0x31, 0x61, 0x62, 0x8003].into_iter().collect());
let mut cursor = trie.cursor();
cursor.step('a');
assert_eq!(cursor.value(), None);
cursor.step('b');
assert_eq!(cursor.value(), Some(3));
assert_eq!(trie.longest_match_str("abc"), Some((2, 3)));
//# trie cursor
use bekstaudi::char16trie::Char16TrieBuilder;

let mut builder = Char16TrieBuilder::new();
builder.add_str("ab", 3)?;
let trie = builder.try_build()?;
let mut cursor = trie.cursor();
cursor.step('a');
assert_eq!(cursor.value(), None);
cursor.step('b');
assert_eq!(cursor.value(), Some(3));
//# trie iter
use bekstaudi::char16trie::{Char16TrieBuilder, TrieResult};

let mut builder = Char16TrieBuilder::new();
builder.add_str("ab", 3)?;
let trie = builder.try_build()?;
let mut iterator = trie.iter();
assert_eq!(iterator.next('a'), TrieResult::NoValue);
assert_eq!(iterator.next('b'), TrieResult::FinalValue(3));
//# trie try_iter2
use bekstaudi::char16trie::Char16TrieBuilder;

let mut builder = Char16TrieBuilder::new();
builder.add_str("a", 1)?;
builder.add_str("ab", 2)?;
let trie = builder.try_build()?;
let entries = trie.try_iter2().collect::<Result<Vec<_>, _>>()?;
assert_eq!(entries, [("a".into(), 1), ("ab".into(), 2)]);
//# trie entries
use bekstaudi::char16trie::Char16TrieBuilder;

let mut builder = Char16TrieBuilder::new();
builder.add_str("ab", 2)?;
let trie = builder.try_build()?;
let mut entries = trie.entries();
assert!(entries.advance());
assert_eq!((entries.key(), entries.value()), ("ab", 2));
assert!(!entries.advance());
