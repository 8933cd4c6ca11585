//! Source in C and in Rust: its names, and what it says of a trie's type.

use crate::host::*;
use crate::support::prelude::*;
use bekstaudi::codepointtrie::TrieType;

/// Returns whether a name in C and in Rust can have a byte: an ASCII letter or digit, or `_`.
fn is_name_byte(byte: u8) -> bool {
    byte.is_ascii_alphanumeric() || byte == b'_'
}

/// Returns whether a text can be a name in C and in Rust: ASCII letters, digits and `_`, and not a
/// digit first. Keywords of the two languages are not excluded.
pub fn is_name(text: &str) -> bool {
    let bytes = text.as_bytes();
    match bytes {
        [] => false,
        [first, ..] if first.is_ascii_digit() => false,
        _ => bytes.iter().all(|byte| is_name_byte(*byte)),
    }
}

/// Returns the name of a type, as in `ucptab`'s arguments.
pub fn type_name(trie_type: TrieType) -> &'static str {
    match trie_type {
        TrieType::Fast => "fast",
        TrieType::Small => "small",
    }
}

/// Returns what is added to `c >> 14` for the index of the index-1 cell of `c`. The cells follow
/// the fast index, and a fast trie leaves out the four of the BMP.
pub fn index1_offset(trie_type: TrieType) -> u32 {
    match trie_type {
        TrieType::Fast => 1024 - 4,
        TrieType::Small => 64,
    }
}
