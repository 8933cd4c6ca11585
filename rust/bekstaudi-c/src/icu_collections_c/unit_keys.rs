//! Keys in UTF-8, transcoded to UTF-16.

use crate::support::AllocError;
use crate::support::prelude::*;

/// Keys in UTF-16: their units, one after another, and how many units each key has.
pub(crate) struct UnitKeys {
    pub units: Vec<u16>,
    pub lengths: Vec<usize>,
}

/// Appends the units of a character.
#[inline]
fn push_char(units: &mut Vec<u16>, c: char) -> Result<(), AllocError> {
    let number = c as u32;
    if let Ok(unit) = u16::try_from(number) {
        units.try_push(unit)?;
        return Ok(());
    }
    let supplementary = number - 0x1_0000;
    units.try_push((0xD800 + supplementary / 0x400) as u16)?;
    units.try_push((0xDC00 + supplementary % 0x400) as u16)?;
    Ok(())
}

/// Appends the units of a text.
#[inline]
fn push_text(units: &mut Vec<u16>, text: &str) -> Result<(), AllocError> {
    for c in text.chars() {
        push_char(units, c)?;
    }
    Ok(())
}

impl UnitKeys {
    /// Appends a key.
    #[inline]
    fn try_push(&mut self, key: &[u8]) -> Result<(), AllocError> {
        let Ok(text) = str::from_utf8(key) else {
            unreachable!();
        };
        let before = self.units.len();
        push_text(&mut self.units, text)?;
        self.lengths.try_push(self.units.len() - before)?;
        Ok(())
    }
}

/// Transcodes the keys, which are UTF-8. Each one is the next `length` of the bytes.
pub(crate) fn transcoded(keys: &[u8], lengths: &[usize]) -> Result<UnitKeys, AllocError> {
    let mut given = UnitKeys {
        units: Vec::new(),
        lengths: Vec::new(),
    };
    let mut rest = keys;
    for length in lengths {
        let (key, after) = rest.split_at(*length);
        given.try_push(key)?;
        rest = after;
    }
    Ok(given)
}
