//! Cuts a text without spaces into words: at each position, the longest word of a list.
//!
//! ```sh
//! ./ucptrie words LIST --as icu -o words.icu # lines WORD;NUMBER
//! echo thecategories | cargo run --example dictionary words.icu
//! ```

use bekstaudi::char16trie::Char16Trie;
use bekstaudi::zerovec::ZeroVec;
use std::{env, fs, io};

/// The words of a text and their numbers. A character with which no word starts is a piece of its own.
fn pieces<'a>(words: &Char16Trie<'_>, text: &'a str) -> Vec<(&'a str, Option<i32>)> {
    let mut pieces = Vec::new();
    let mut rest = text;
    while let Some(first) = rest.chars().next() {
        let found = words.longest_match_str(rest).filter(|&(size, _)| size > 0);
        let size = found.map_or(first.len_utf8(), |(size, _)| size);
        let (piece, after) = rest.split_at(size);
        pieces.push((piece, found.map(|(_, number)| number)));
        rest = after;
    }
    pieces
}

fn main() -> Result<(), Box<dyn std::error::Error>> {
    let Some(path) = env::args().nth(1) else {
        println!("usage: dictionary WORDS.icu < TEXT");
        return Ok(());
    };
    let units = fs::read(path)?;
    let words = Char16Trie::new(ZeroVec::parse_bytes(&units)?);
    for (piece, number) in pieces(&words, &io::read_to_string(io::stdin())?) {
        match number {
            Some(number) => println!("{piece} {number}"),
            None => println!("{piece}"),
        }
    }
    Ok(())
}
