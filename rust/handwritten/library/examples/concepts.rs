//! The four structures of docs/CONCEPTS.md: a trie, a set, a frozen set and a list of words.

use bekstaudi::char16trie::Char16TrieBuilder;
use bekstaudi::codepointinvlist::{CodePointInversionListBuilder, FrozenCodePointSet};
use bekstaudi::codepointtrie::{CodePointTrieBuilder, TrieType};

fn main() -> Result<(), Box<dyn std::error::Error>> {
    // A value for each code point: 0 if none is given, and 255 for numbers that are no code point.
    let mut builder = CodePointTrieBuilder::new(0u8, 255, TrieType::Fast);
    builder.set_range_value(0x41..=0x5A, 1);
    builder.set_range_value(0x61..=0x7A, 2);
    let trie = builder.build();
    assert_eq!((trie.get('Q'), trie.get('é')), (1, 0));
    assert_eq!(trie.get32(0x110000), 255);

    // A set of code points.
    let mut builder = CodePointInversionListBuilder::new();
    builder.add_range('A'..='Z');
    builder.add_char('ß');
    let set = builder.build();
    assert!(set.contains('Q') && !set.contains('q') && set.size() == 27);

    // The same set, for many look-ups.
    let frozen = FrozenCodePointSet::freeze(&set);
    assert!(frozen.contains('Q') && !frozen.contains('q'));
    assert_eq!(frozen.span("ABCdef", true), 3);

    // Words with numbers. The length of the longest is in bytes of the text.
    let mut builder = Char16TrieBuilder::new();
    builder.add_str("car", 2)?;
    builder.add_str("cat", 3)?;
    builder.add_str("category", 4)?;
    let words = builder.try_build()?;
    assert_eq!(words.longest_match_str("categories"), Some((3, 3)));
    Ok(())
}
