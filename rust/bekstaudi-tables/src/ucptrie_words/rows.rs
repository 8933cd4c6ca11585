//! The entries of a trie, in lines.

use crate::host::*;
use crate::support::AllocError;
use crate::support::prelude::*;
use crate::ucptab_table::rows::trimmed;
use crate::ucptrie_words::error::RowsError;
use crate::ucptrie_words::line::is_silent;
use bekstaudi::char16trie::Char16Trie;

/// Returns whether a text has the character U+FFFD.
fn has_replacement(text: &str) -> bool {
    text.chars().any(|c| c == '\u{fffd}')
}

/// Returns whether the bytes have a line feed.
fn has_line_feed(bytes: &[u8]) -> bool {
    bytes.iter().any(|byte| *byte == b'\n')
}

/// Returns whether a line can have the text as its key.
fn can_be_key(text: &str) -> bool {
    let bytes = text.as_bytes();
    if trimmed(bytes).len() != bytes.len() || is_silent(bytes) {
        return false;
    }
    !has_line_feed(bytes) && !has_replacement(text)
}

/// Appends the line of a key and a value.
fn push_line(text: &mut String, key: &str, value: i32) -> Result<(), AllocError> {
    writeln!(text, "{key};{value}")
}

/// Appends the line of a key and a value, if a line can have the key.
fn push_row(text: &mut String, key: &str, value: i32) -> Result<(), RowsError> {
    if !can_be_key(key) {
        return Err(RowsError::Key(String::from_str(key)?));
    }
    Ok(push_line(text, key, value)?)
}

/// Returns the lines of the entries of a trie, in its order.
pub(crate) fn rows_text(trie: &Char16Trie<'_>) -> Result<String, RowsError> {
    let mut text = String::new();
    let mut entries = trie.entries();
    while entries.try_advance()? {
        push_row(&mut text, entries.key(), entries.value())?;
    }
    Ok(text)
}
