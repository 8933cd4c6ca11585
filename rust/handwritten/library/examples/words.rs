//! A list of words with numbers: built, listed, and asked for the longest word that starts a text.

use bekstaudi::char16trie::Char16TrieBuilder;

fn main() -> Result<(), Box<dyn std::error::Error>> {
    let mut builder = Char16TrieBuilder::new();
    for (number, word) in ["in", "inn", "inner", "out"].iter().enumerate() {
        builder.add_str(word, number as i32)?;
    }
    let trie = builder.try_build()?;
    for (word, number) in trie.iter2() {
        println!("{word}: {number}");
    }
    // The length is in bytes of the text.
    assert_eq!(trie.longest_match_str("inning"), Some((3, 1)));
    assert_eq!(trie.longest_match_str("outer"), Some((3, 3)));
    Ok(())
}
