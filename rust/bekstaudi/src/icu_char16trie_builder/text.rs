//! The units of a text in UTF-16.

use crate::icu_char16trie_builder::builder::LONGEST_KEY;
use crate::support::AllocError;
use crate::support::prelude::*;

/// Returns true if a text has more units than a key may have.
#[inline]
pub(crate) fn is_too_long(text: &str) -> bool {
    let mut count = 0;
    for c in text.chars() {
        count += c.len_utf16();
        if count > LONGEST_KEY {
            return true;
        }
    }
    false
}

/// Appends the units of a character.
#[inline]
fn push_char(units: &mut Vec<u16>, c: char) -> Result<(), AllocError> {
    let number = c as u32;
    if let Ok(unit) = u16::try_from(number) {
        units.try_push(unit)?;
        return Ok(());
    }
    let supplementary = number - 0x1_0000;
    units.try_push((0xD800 + supplementary / 0x400) as u16)?;
    units.try_push((0xDC00 + supplementary % 0x400) as u16)?;
    Ok(())
}

/// Returns the units of a text.
#[inline]
pub(crate) fn units_of_text(text: &str) -> Result<Vec<u16>, AllocError> {
    let mut units = Vec::with_room(text.len())?;
    for c in text.chars() {
        push_char(&mut units, c)?;
    }
    Ok(units)
}
