//! What all lines say.

use crate::host::*;
use crate::support::prelude::*;
use crate::ucptab_table::input::first_line;
use crate::ucptrie_words::error::{LineError, WordsError};
use crate::ucptrie_words::line::{Word, word_of};
use bekstaudi::char16trie::AddError;
use bekstaudi::char16trie::Char16TrieBuilder;

/// Adds the word of line `number`.
fn add_word(
    builder: &mut Char16TrieBuilder,
    number: u64,
    word: Word<'_>,
) -> Result<(), WordsError> {
    match builder.add_str(word.key, word.value) {
        Ok(()) => Ok(()),
        Err(AddError::KeyTooLong) => Err(WordsError::Line(number, LineError::LongKey)),
        Err(AddError::Duplicate) => Err(WordsError::Line(number, LineError::Repeated)),
        Err(_) => Err(WordsError::Memory),
    }
}

/// Adds the word of a line, if it has one. The line has this number.
fn add_line(builder: &mut Char16TrieBuilder, number: u64, line: &[u8]) -> Result<(), WordsError> {
    match word_of(line) {
        Ok(None) => Ok(()),
        Ok(Some(word)) => add_word(builder, number, word),
        Err(fault) => Err(WordsError::Line(number, fault)),
    }
}

/// Reads a word list, and returns a builder with exactly its entries. A key becomes its units in
/// UTF-16.
///
/// Lines end in LF or CR LF. The words may be in any order.
///
/// # Errors
/// Returns [`WordsError::Line`] for the first line that has a fault or repeats a key, counted from
/// 1, and [`WordsError::Memory`] if an allocation fails.
pub fn read_words(input: &[u8]) -> Result<Char16TrieBuilder, WordsError> {
    let mut builder = Char16TrieBuilder::new();
    let mut number = 0u64;
    let mut rest = input;
    while let Some((line, after)) = first_line(rest) {
        number += 1;
        rest = after;
        add_line(&mut builder, number, line)?;
    }
    Ok(builder)
}
