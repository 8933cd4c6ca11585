//# mod
//# builder Char16TrieBuilder
use bekstaudi::char16trie::{AddError, Char16TrieBuilder};

let mut builder = Char16TrieBuilder::new();
builder.add(&[0x61, 0x62], 2)?;
builder.add_str("a", 1)?;
assert_eq!(builder.add_str("a", 3), Err(AddError::Duplicate));
let trie = builder.try_build()?;
let entries: Vec<_> = trie.iter2().collect();
assert_eq!(entries, [("a".into(), 1), ("ab".into(), 2)]);
//# builder add_str
use bekstaudi::char16trie::{AddError, Char16TrieBuilder};

let mut builder = Char16TrieBuilder::new();
builder.add_str("\u{1F600}", 3)?;
assert_eq!(builder.add(&[0xD83D, 0xDE00], 3), Err(AddError::Duplicate));
//# builder build_sorted
use bekstaudi::char16trie::Char16TrieBuilder;

let entries: [(&[u16], i32); 2] = [(&[0x61], 1), (&[0x61, 0x62], 2)];
let trie = Char16TrieBuilder::build_sorted(&entries)?;
assert_eq!(trie.longest_match_str("ab"), Some((2, 2)));
