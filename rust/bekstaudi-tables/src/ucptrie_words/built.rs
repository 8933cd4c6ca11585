//! The trie of a word list, and the trie that a file of units has.

use crate::host::*;
use crate::support::prelude::*;
use crate::ucptrie_words::error::{UnitsError, WordsError};
use crate::ucptrie_words::read::read_words;
use bekstaudi::char16trie::BuildError;
use bekstaudi::char16trie::Char16Trie;
use bekstaudi::zerovec::ZeroVec;

/// Returns the trie of a word list, which has exactly its entries. Without words it has no units.
///
/// # Errors
/// Returns [`WordsError::Line`] for the first line that has a fault or repeats a key, counted from
/// 1, [`WordsError::TooLarge`] if and only if no line has a fault and the entries may need more than
/// `0x7FFF_FFFF` units (two for each unit of a key, and sixteen for each entry), and
/// [`WordsError::Memory`] if an allocation fails, even if the entries are too many.
pub fn trie_of_words(input: &[u8]) -> Result<Char16Trie<'static>, WordsError> {
    let builder = read_words(input)?;
    match builder.try_build() {
        Ok(trie) => Ok(trie),
        Err(BuildError::TooLarge) => Err(WordsError::TooLarge),
        // Building returns no other error.
        Err(_) => Err(WordsError::Memory),
    }
}

/// Returns the trie with these units, two bytes each, the low byte first. It borrows them.
///
/// # Errors
/// Returns [`UnitsError::HalfUnit`] if the number of bytes is odd, [`UnitsError::NotATrie`] if the
/// units are no trie, and [`UnitsError::Memory`] if an allocation fails.
pub fn trie_of_units(bytes: &[u8]) -> Result<Char16Trie<'_>, UnitsError> {
    let Ok(units) = ZeroVec::parse_bytes(bytes) else {
        return Err(UnitsError::HalfUnit);
    };
    let trie = Char16Trie::new(units);
    match trie.try_is_trie() {
        Ok(true) => Ok(trie),
        Ok(false) => Err(UnitsError::NotATrie),
        Err(_) => Err(UnitsError::Memory),
    }
}
