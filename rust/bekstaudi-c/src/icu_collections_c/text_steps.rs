//! Steps of a cursor along the characters of bytes that may be ill-formed UTF-8.

use crate::icu_char16trie::char16trie::Char16TrieCursor;
use crate::icu_utf::characters::first_character;
use crate::support::prelude::*;

/// Returns true if the bytes are not empty and do not start with a character.
#[inline(always)]
pub(crate) fn starts_ill_formed(bytes: &[u8]) -> bool {
    !bytes.is_empty() && first_character(bytes).is_none()
}

/// Advances the cursor past the character at offset `end`, and returns the offset after it. Returns
/// `None` if no key continues, or if no character starts there.
#[inline(always)]
pub(crate) fn pass_character(
    cursor: &mut Char16TrieCursor<'_>,
    bytes: &[u8],
    end: usize,
) -> Option<usize> {
    if cursor.is_empty() {
        return None;
    }
    let (c, size) = first_character(&bytes[end..])?;
    cursor.step(c);
    Some(end + size)
}
