//! Unit tries.

use crate::icu_char16trie::char16trie::{Char16Trie, TrieResult};
use crate::icu_zerovec::{MemoryError, ZeroVec};
#[allow(unused_imports)]
use crate::runtime::*;
use crate::stored_forms::sets::{by_bytes, by_unit_json};
use crate::stored_forms::{Outcome, value_of};
use crate::support::AllocError;
#[allow(unused_imports)]
use crate::support::prelude::*;

/// How many entries are listed at most. Nodes may be shared, so a few units can have more entries
/// than there is time for.
const MOST: usize = 1000;

/// Whether nothing matches after a first mismatch, for the characters of a text.
fn stays_lost(trie: &Char16Trie<'_>, text: &str) -> bool {
    let mut iterator = trie.iter();
    let mut lost = false;
    for c in text.chars() {
        let is_lost = iterator.next(c) == TrieResult::NoMatch;
        if lost && !is_lost {
            return false;
        }
        lost = is_lost;
    }
    true
}

/// How many entries a listing has, `MOST` at most.
fn entries_given(trie: &Char16Trie<'_>) -> Result<u64, MemoryError> {
    let mut given = 0u64;
    for entry in trie.try_iter2().take(MOST) {
        let _entry = entry?;
        given = given.saturating_add(1);
    }
    Ok(given)
}

/// Whether the units are reported to be a trie exactly if their entries can be counted, and the
/// listing has as many entries as were counted.
fn counts_agree(trie: &Char16Trie<'_>) -> Result<bool, MemoryError> {
    let given = entries_given(trie)?;
    let is_trie = trie.try_is_trie()?;
    match trie.try_count_entries()? {
        Some(count) => Ok(is_trie && given == count.min(MOST as u64)),
        None => Ok(!is_trie),
    }
}

/// The outcome of calling the functions of a trie.
fn asked(trie: &Char16Trie<'_>) -> Outcome {
    if !stays_lost(trie, "az\u{1F600}d") || !stays_lost(trie, "ezz") {
        return Outcome::Wrong("a match after none");
    }
    match counts_agree(trie) {
        Ok(true) => Outcome::Taken,
        Ok(false) => Outcome::Wrong("other entries than are counted"),
        Err(MemoryError) => Outcome::Wrong("memory was refused"),
    }
}

/// The outcome of reading bytes as the units of a trie.
pub fn of_bytes(bytes: &[u8]) -> Outcome {
    match ZeroVec::parse_bytes(bytes) {
        Ok(units) => asked(&Char16Trie::new(units)),
        Err(error) => by_bytes(error),
    }
}

/// The outcome of reading a text as the JSON of a unit trie.
pub fn of_json(text: &[u8]) -> Outcome {
    let value = match value_of(text) {
        Ok(value) => value,
        Err(outcome) => return outcome,
    };
    match Char16Trie::from_json(&value) {
        Ok(trie) => asked(&trie),
        Err(error) => by_unit_json(error),
    }
}

/// The packed units of the trie that a JSON text describes.
pub fn stored_units(text: &[u8]) -> Result<Vec<u8>, AllocError> {
    let Ok(value) = value_of(text) else {
        return Ok(Vec::new());
    };
    match Char16Trie::from_json(&value) {
        Ok(trie) => Vec::from_slice(trie.data.as_bytes()),
        Err(_) => Ok(Vec::new()),
    }
}
