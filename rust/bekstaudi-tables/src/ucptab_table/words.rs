//! The arguments of the program.

use crate::host::*;
use crate::support::AllocError;
use crate::support::prelude::*;
use crate::ucptab_table::digits::{decimal_number, hexadecimal};
use bekstaudi::codepointtrie::TrieType;

/// What the arguments ask for.
#[derive(Clone, Copy)]
pub struct Request<'a> {
    /// The type of the trie.
    pub trie_type: TrieType,
    /// The value of each code point that no row covers.
    pub default: u32,
    /// The value of each number above 0x10FFFF.
    pub error: u32,
    /// The words of the asked numbers, each of 1 to 8 hexadecimal digits.
    pub asked: &'a [String],
}

/// Returns the trie type with the name `fast` or `small`, or `None` for any other word.
fn trie_type_of(word: &[u8]) -> Option<TrieType> {
    if word == b"fast".as_slice() {
        Some(TrieType::Fast)
    } else if word == b"small".as_slice() {
        Some(TrieType::Small)
    } else {
        None
    }
}

/// Returns the value that 1 to 10 decimal digits write, or `None` for any other word and above
/// 4294967295.
fn value_of(word: &[u8]) -> Option<u32> {
    let number = decimal_number(word)?;
    u32::try_from(number).ok()
}

/// Returns whether each word is 1 to 8 hexadecimal digits.
fn are_hexadecimal(words: &[String]) -> bool {
    words
        .iter()
        .all(|word| hexadecimal(word.as_bytes()).is_some())
}

/// Returns what the words after the program's name ask for, KIND DEFAULT ERROR [HEX ..], or `None`
/// if they can't be read.
///
/// Allocates nothing, so that all words are tested before any is used.
pub fn request_of(words: &[String]) -> Option<Request<'_>> {
    let [kind, default, error, asked @ ..] = words else {
        return None;
    };
    let trie_type = trie_type_of(kind.as_bytes())?;
    let default = value_of(default.as_bytes())?;
    let error = value_of(error.as_bytes())?;
    if !are_hexadecimal(asked) {
        return None;
    }
    Some(Request {
        trie_type,
        default,
        error,
        asked,
    })
}

/// Appends the number that a word writes in hexadecimal digits, if it writes one.
fn push_number(asked: &mut Vec<u32>, word: &[u8]) -> Result<(), AllocError> {
    if let Some(number) = hexadecimal(word) {
        asked.try_push(number)?;
    }
    Ok(())
}

/// Returns the numbers that the words write in hexadecimal digits, in order.
pub fn asked_numbers(words: &[String]) -> Result<Vec<u32>, AllocError> {
    // One by one: `collect` would go on after its first allocation fails.
    let mut asked = Vec::new();
    for word in words {
        push_number(&mut asked, word.as_bytes())?;
    }
    Ok(asked)
}
