//! Conversion of sets to and from JSON.

#![cfg(feature = "json")]
use crate::icu_invlist::codepointinvlist::cpinvlist::CodePointInversionList;
use crate::icu_invlist::codepointinvlist::error::SetJsonError;
use crate::icu_invlist::codepointinvlist::utils::is_valid_slice;
use crate::icu_invlist::spelling::{range_of, text_of_range};
use crate::icu_zerovec::MemoryError;
use crate::support::prelude::*;
use serde_json::Value;

/// Appends the two boundaries of a range.
#[inline]
fn push_two(ends: &mut Vec<u32>, start: u32, end: u32) -> Result<(), MemoryError> {
    ends.try_push(start)?;
    ends.try_push(end)?;
    Ok(())
}

/// Returns the boundaries of the ranges that the items spell, in the order of the items.
fn ends_of_items(items: &[Value]) -> Result<Vec<u32>, SetJsonError> {
    let mut ends = Vec::new();
    for (i, item) in items.iter().enumerate() {
        let Some(text) = item.as_str() else {
            return Err(SetJsonError::NotAString(i));
        };
        let Some((first, last)) = range_of(text) else {
            return Err(SetJsonError::NotARange(i));
        };
        let Ok(()) = push_two(&mut ends, first, last + 1) else {
            return Err(SetJsonError::Memory);
        };
    }
    Ok(ends)
}

/// Returns the boundaries of the ranges that a JSON value spells.
#[inline]
fn ends_of_value(value: &Value) -> Result<Vec<u32>, SetJsonError> {
    let Some(items) = value.as_array() else {
        return Err(SetJsonError::NotAnArray);
    };
    let ends = ends_of_items(items)?;
    Ok(ends)
}

impl<'data> CodePointInversionList<'data> {
    /// Returns the set as a JSON array with one string for each range, in ascending order: `["A-Z",
    /// "_"]`.
    ///
    /// A range of one code point is that character; a longer one is its first and its last
    /// character with `-` between them. A surrogate is written as `U+` and four upper-case
    /// hexadecimal digits.
    ///
    /// # Errors
    /// Returns `MemoryError` if an allocation fails.
    #[inline]
    pub fn to_json(&self) -> Result<Value, MemoryError> {
        let count = self.count();
        let mut items = Vec::with_room(count / 2)?;
        let mut i = 0;
        while i < count {
            let text = text_of_range(self.end_at(i), self.end_at(i + 1) - 1)?;
            items.try_push(Value::String(text))?;
            i += 2;
        }
        Ok(Value::Array(items))
    }

    /// Returns the set that a JSON array of strings spells. Each string is a range as
    /// [`to_json`](Self::to_json) writes it: `["A-Z", "_"]`.
    ///
    /// Any code point that fits may also be spelled as `U+` and exactly four hexadecimal digits of
    /// either case.
    ///
    /// # Errors
    /// - `SetJsonError::NotAnArray` if `value` is not an array.
    /// - `SetJsonError::NotAString` if the first bad item is not a string, with the index of that
    ///   item.
    /// - `SetJsonError::NotARange` if the first bad item is a string that does not spell a range,
    ///   with the index of that item.
    /// - `SetJsonError::InvalidSet` if a range is reversed, or if the ranges are not ascending with
    ///   gaps between them.
    /// - `SetJsonError::Memory` if an allocation fails.
    #[inline]
    pub fn from_json(value: &Value) -> Result<CodePointInversionList<'static>, SetJsonError> {
        let ends = ends_of_value(value)?;
        if !is_valid_slice(&ends) {
            return Err(SetJsonError::InvalidSet);
        }
        let Ok(set) = CodePointInversionList::from_valid_slice(&ends) else {
            return Err(SetJsonError::Memory);
        };
        Ok(set)
    }
}
