//! In which form a file is, by its first bytes.
use crate::host::*;
use crate::support::prelude::*;
use crate::ucptab_table::rows::{before, code_points_of, content_of, trimmed};
use crate::ucptrie_inputs::offsets::starts_trie;

/// Returns the content of the first line that has any, or nothing.
fn first_content(text: &str) -> &[u8] {
    for line in text.lines() {
        let content = content_of(line.as_bytes());
        if !content.is_empty() {
            return content;
        }
    }
    &[]
}

/// Returns whether a byte may be in a key of TOML, in quotes or not.
fn is_key_byte(byte: u8) -> bool {
    byte.is_ascii_alphanumeric() || b"_-.\"' \t".contains(&byte)
}

/// Returns whether a text is a key of TOML, as far as its bytes say.
fn is_key(text: &[u8]) -> bool {
    !text.is_empty() && text.iter().all(|byte| is_key_byte(*byte))
}

/// Returns what is between the brackets of a header in TOML, `[KEY]` or `[[KEY]]`.
fn header_of(content: &[u8]) -> Option<&[u8]> {
    let inner = content
        .strip_prefix(b"[".as_slice())?
        .strip_suffix(b"]".as_slice())?;
    match inner.strip_prefix(b"[".as_slice()) {
        Some(inner) => inner.strip_suffix(b"]".as_slice()),
        None => Some(inner),
    }
}

/// Returns the key in a line of TOML: that of a header, or that before a `=`.
fn toml_key(content: &[u8]) -> Option<&[u8]> {
    match header_of(content) {
        Some(key) => Some(key),
        None if content.contains(&b'=') => Some(trimmed(before(b'=', content))),
        None => None,
    }
}

/// Returns the key in the first line with content of a file that is taken for TOML: the line is a
/// header or starts with a key and `=`. Files of lines start otherwise, even with `[` or with `=`
/// later in the line, as NamesList.txt and FractionalUCA.txt.
fn first_key(file: &[u8]) -> Option<&[u8]> {
    let text = str::from_utf8(file).ok()?;
    let key = toml_key(first_content(text))?;
    if is_key(key) { Some(key) } else { None }
}

/// Returns whether a file is taken for TOML.
pub fn is_toml(file: &[u8]) -> bool {
    first_key(file).is_some()
}

/// Returns whether a file is taken for JSON: its first byte after white space is `{`.
pub fn is_json(file: &[u8]) -> bool {
    match str::from_utf8(file) {
        Ok(text) => text.trim_start().starts_with('{'),
        Err(_) => false,
    }
}

/// Returns whether a file is taken for what `convert` or `set` reads, and not for lines. A line
/// that starts with code points and a `=` is more likely a faulty row than TOML.
pub fn is_made(file: &[u8]) -> bool {
    let is_text = match first_key(file) {
        Some(key) => code_points_of(key).is_none(),
        None => is_json(file),
    };
    is_text || starts_trie(file)
}
