//! Reads and writes a trie as JSON: an object whose key `data` has the units as an array of
//! numbers.

#![cfg(feature = "json")]
use crate::icu_char16trie::trie::Char16Trie;
use crate::icu_zerovec::{MemoryError, ZeroSlice, ZeroVec};
use crate::support::prelude::*;
use serde_json::{Value, json};

/// Why a JSON value is not a trie.
#[derive(Clone, Copy, Debug, PartialEq, Eq, Hash)]
#[non_exhaustive]
pub enum Char16JsonError {
    /// It is not an object, it has neither or both of the keys `data` and `trie_data`, or the key's
    /// value is not an array.
    Shape,
    /// The item at this index, counted from 0, is the first that is not a whole number up to 65535.
    Number(usize),
    /// An allocation failed.
    Memory,
}

impl From<MemoryError> for Char16JsonError {
    #[inline]
    fn from(_error: MemoryError) -> Char16JsonError {
        Char16JsonError::Memory
    }
}

/// Returns the unit of an item, or `None` if the item is not a whole number up to 65535.
#[inline]
fn unit_of(item: &Value) -> Option<u16> {
    u16::try_from(item.as_u64()?).ok()
}

/// Returns the units of the items, in their order.
fn units_of_items(items: &[Value]) -> Result<Vec<u16>, Char16JsonError> {
    let Ok(mut units) = Vec::with_room(items.len()) else {
        return Err(Char16JsonError::Memory);
    };
    for (i, item) in items.iter().enumerate() {
        let Some(unit) = unit_of(item) else {
            return Err(Char16JsonError::Number(i));
        };
        let Ok(()) = units.try_push(unit) else {
            return Err(Char16JsonError::Memory);
        };
    }
    Ok(units)
}

/// Returns the JSON object of a trie with these units.
#[inline]
fn object_of(units: ZeroSlice<'_, u16>) -> Result<Value, MemoryError> {
    let mut items = Vec::with_room(units.len())?;
    for unit in units.iter() {
        items.try_push(Value::from(unit))?;
    }
    Ok(crate::support::try_json!({ "data": Value::Array(items) })?)
}

impl<'data> Char16Trie<'data> {
    /// Reads a trie from a JSON value: an object whose key `data` or `trie_data` has an array of
    /// whole numbers up to 65535.
    ///
    /// Other keys are ignored. The units are not validated; [`Char16Trie::is_trie`] does that.
    ///
    /// ```
    /// use bekstaudi::char16trie::Char16Trie;
    ///
    /// let trie = Char16Trie::from_json(&serde_json::json!({"data": [49, 97, 98, 32771]}))?;
    /// assert_eq!(trie.iter2().next(), Some(("ab".into(), 3)));
    /// # Ok::<(), Box<dyn std::error::Error>>(())
    /// ```
    ///
    /// # Errors
    /// In this order:
    ///
    /// - `Shape` if the value is not an object, has neither or both of the keys, or the key's value
    ///   is not an array.
    /// - `Number` with the index of the first item that is not a whole number up to 65535.
    ///
    /// `Memory` if an allocation fails.
    #[inline]
    pub fn from_json(value: &Value) -> Result<Char16Trie<'static>, Char16JsonError> {
        let items = match (value.get("data"), value.get("trie_data")) {
            (Some(items), None) | (None, Some(items)) => items,
            (None, None) | (Some(_), Some(_)) => return Err(Char16JsonError::Shape),
        };
        let Some(items) = items.as_array() else {
            return Err(Char16JsonError::Shape);
        };
        let units = units_of_items(items)?;
        Ok(Char16Trie::new(ZeroVec::alloc_from_slice(&units)?))
    }

    /// Writes the trie as a JSON value: an object with the single key `data`, which has the units
    /// as an array of numbers.
    ///
    /// # Errors
    /// Returns `MemoryError` if an allocation fails.
    #[inline]
    pub fn to_json(&self) -> Result<Value, MemoryError> {
        let value = object_of(self.data.as_slice())?;
        Ok(value)
    }
}

impl core::fmt::Display for Char16JsonError {
    #[inline]
    fn fmt(&self, f: &mut core::fmt::Formatter<'_>) -> core::fmt::Result {
        match self {
            Char16JsonError::Shape => f.write_str("no object with one array `data` or `trie_data`"),
            Char16JsonError::Number(field) => {
                write!(f, "item {field} is no whole number up to 65535")
            }
            Char16JsonError::Memory => f.write_str("no memory"),
        }
    }
}

impl core::error::Error for Char16JsonError {}
