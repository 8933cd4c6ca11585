//! Reads and writes a trie as JSON: an object with a header, an index and data.
//!
//! ```
//! use bekstaudi::codepointtrie::{CodePointTrieBuilder, TrieType, json};
//!
//! let mut builder = CodePointTrieBuilder::new(0u8, 9, TrieType::Small);
//! builder.set_range_value(0x41..=0x5A, 1);
//! let trie = builder.build();
//! let text = json::to_json(&trie)?.to_string();
//! assert_eq!(json::from_json::<u8>(&serde_json::from_str(&text)?)?, trie);
//! # Ok::<(), Box<dyn std::error::Error>>(())
//! ```

#![cfg(feature = "json")]
use crate::icu_trie::cptrie::CodePointTrie;
use crate::icu_trie::error::{CodePointTrieError, PartsError};
use crate::icu_trie::header::{CodePointTrieHeader, TrieType};
use crate::icu_trie::value::TrieValue;
use crate::icu_zerovec::{MemoryError, ZeroSlice};
use crate::support::prelude::*;
use serde_json::{Value, json};

/// Why a JSON value is not a trie.
#[derive(Clone, Copy, Debug, PartialEq, Eq, Hash)]
#[non_exhaustive]
pub enum TrieJsonError {
    /// The member at this key is missing, or is not the required object, array or name of a trie
    /// type. The key is empty if the value itself is not an object.
    Shape(&'static str),
    /// The member at this key, or an item of its array, is not a whole number in its range.
    Number(&'static str),
    /// The data cell at this index, counted from 0, is the first that is not the number of a value.
    Value(usize),
    /// The parts do not form a trie.
    Trie(CodePointTrieError),
    /// An allocation failed.
    Memory,
}

impl From<CodePointTrieError> for TrieJsonError {
    #[inline]
    fn from(error: CodePointTrieError) -> TrieJsonError {
        TrieJsonError::Trie(error)
    }
}

impl From<MemoryError> for TrieJsonError {
    #[inline]
    fn from(_error: MemoryError) -> TrieJsonError {
        TrieJsonError::Memory
    }
}

/// Returns the number of a JSON value if it is a whole number that fits in 32 bits.
#[inline]
fn number_of(value: &Value) -> Option<u32> {
    u32::try_from(value.as_u64()?).ok()
}

/// Returns the member at a key.
#[inline]
fn member_at<'a>(value: &'a Value, key: &'static str) -> Result<&'a Value, TrieJsonError> {
    match value.get(key) {
        Some(member) => Ok(member),
        None => Err(TrieJsonError::Shape(key)),
    }
}

/// Returns the number at a key if it is in the range of its type.
#[inline]
fn number_at<N: TrieValue>(value: &Value, key: &'static str) -> Result<N, TrieJsonError> {
    let member = member_at(value, key)?;
    let Some(number) = number_of(member) else {
        return Err(TrieJsonError::Number(key));
    };
    let Ok(number) = N::try_from_u32(number) else {
        return Err(TrieJsonError::Number(key));
    };
    Ok(number)
}

/// Returns the trie type at its key.
#[inline]
fn type_at(value: &Value) -> Result<TrieType, TrieJsonError> {
    let Some(name) = member_at(value, "trie_type")?.as_str() else {
        return Err(TrieJsonError::Shape("trie_type"));
    };
    match name {
        "Fast" => Ok(TrieType::Fast),
        "Small" => Ok(TrieType::Small),
        _ => Err(TrieJsonError::Shape("trie_type")),
    }
}

/// Returns the header that an object encodes.
#[inline]
fn header_of(value: &Value) -> Result<CodePointTrieHeader, TrieJsonError> {
    Ok(CodePointTrieHeader {
        high_start: number_at(value, "high_start")?,
        shifted12_high_start: number_at(value, "shifted12_high_start")?,
        index3_null_offset: number_at(value, "index3_null_offset")?,
        data_null_offset: number_at(value, "data_null_offset")?,
        null_value: number_at(value, "null_value")?,
        trie_type: type_at(value)?,
    })
}

/// Returns the header at its key.
#[inline]
fn header_at(value: &Value) -> Result<CodePointTrieHeader, TrieJsonError> {
    let header = member_at(value, "header")?;
    if !header.is_object() {
        return Err(TrieJsonError::Shape("header"));
    }
    let header = header_of(header)?;
    Ok(header)
}

/// Returns the items of an array.
#[inline]
fn items_of(value: &Value) -> Option<&[Value]> {
    match value.as_array() {
        Some(items) => Some(items.as_slice()),
        None => None,
    }
}

/// Returns the items of the array at a key.
#[inline]
fn items_at<'a>(value: &'a Value, key: &'static str) -> Result<&'a [Value], TrieJsonError> {
    let Some(items) = items_of(member_at(value, key)?) else {
        return Err(TrieJsonError::Shape(key));
    };
    Ok(items)
}

/// Returns the cells of an index.
fn cells_of(items: &[Value]) -> Result<Vec<u16>, TrieJsonError> {
    let Ok(mut cells) = Vec::with_room(items.len()) else {
        return Err(TrieJsonError::Memory);
    };
    for item in items {
        let Some(number) = number_of(item) else {
            return Err(TrieJsonError::Number("index"));
        };
        let Ok(cell) = u16::try_from_u32(number) else {
            return Err(TrieJsonError::Number("index"));
        };
        let Ok(()) = cells.try_push(cell) else {
            return Err(TrieJsonError::Memory);
        };
    }
    Ok(cells)
}

/// Returns the values of the data.
fn values_of<T: TrieValue>(items: &[Value]) -> Result<Vec<T>, TrieJsonError> {
    let Ok(mut values) = Vec::with_room(items.len()) else {
        return Err(TrieJsonError::Memory);
    };
    for (i, item) in items.iter().enumerate() {
        let Some(number) = number_of(item) else {
            return Err(TrieJsonError::Number("data"));
        };
        let Ok(value) = T::try_from_u32(number) else {
            return Err(TrieJsonError::Value(i));
        };
        let Ok(()) = values.try_push(value) else {
            return Err(TrieJsonError::Memory);
        };
    }
    Ok(values)
}

/// Returns the trie of these parts. It owns its cells.
#[inline]
fn trie_with<T: TrieValue>(
    header: CodePointTrieHeader,
    index: &[u16],
    values: &[T],
) -> Result<CodePointTrie<'static, T>, TrieJsonError> {
    match CodePointTrie::alloc_from_slices(header, index, values) {
        Ok(trie) => Ok(trie),
        Err(PartsError::Trie(error)) => Err(TrieJsonError::Trie(error)),
        Err(PartsError::Memory) => Err(TrieJsonError::Memory),
    }
}

/// Returns the numbers of these values as JSON.
#[inline]
fn numbers_json<T: TrieValue>(values: ZeroSlice<'_, T>) -> Result<Value, MemoryError> {
    let mut items = Vec::with_room(values.len())?;
    for value in values.iter() {
        items.try_push(Value::from(value.to_u32()))?;
    }
    Ok(Value::Array(items))
}

/// Returns the name of a trie type.
#[inline]
fn type_name(trie_type: TrieType) -> &'static str {
    match trie_type {
        TrieType::Fast => "Fast",
        TrieType::Small => "Small",
    }
}

/// Returns a header as JSON.
#[inline]
fn header_json(header: CodePointTrieHeader) -> Result<Value, MemoryError> {
    let value = crate::support::try_json!({
        "high_start": header.high_start,
        "shifted12_high_start": header.shifted12_high_start,
        "index3_null_offset": header.index3_null_offset,
        "data_null_offset": header.data_null_offset,
        "null_value": header.null_value,
        "trie_type": type_name(header.trie_type),
    })?;
    Ok(value)
}

/// Returns the object of a header, an index and data.
#[inline]
fn object_of(header: Value, index: Value, data: Value) -> Result<Value, MemoryError> {
    Ok(crate::support::try_json!({ "header": header, "index": index, "data": data })?)
}

/// Reads a trie from a JSON value: an object with a header, an index and data.
///
/// `header` is an object with the whole numbers `high_start`, `data_null_offset` and `null_value`
/// (32 bits), `shifted12_high_start` and `index3_null_offset` (16 bits), and `trie_type`, the
/// string `Fast` or `Small`. `index` is an array of whole numbers up to 65535, and `data` is an
/// array of the numbers of the values. Other keys are ignored.
///
/// ```
/// use bekstaudi::codepointtrie::json::{from_json, to_json};
/// use bekstaudi::codepointtrie::planes::get_planes_trie;
///
/// let value = to_json(&get_planes_trie())?;
/// let trie = from_json::<u8>(&value)?;
/// assert_eq!(trie.get32(0x1F600), 1);
/// # Ok::<(), Box<dyn std::error::Error>>(())
/// ```
///
/// # Errors
/// Returns the first error in this order:
///
/// - `Shape("")` if the value is not an object.
/// - An error in the header. Its keys are checked in the order `high_start`,
///   `shifted12_high_start`, `index3_null_offset`, `data_null_offset`, `null_value`, `trie_type`.
/// - An error in the index, then one in the data, cell by cell.
/// - `Trie` if `CodePointTrie::try_new` rejects the parts.
///
/// An error at a key is one of these:
///
/// - `Shape` with the key if it is missing, or is not the required object, array or name of a trie
///   type.
/// - `Number` with the key if the number, or an item of the array, is not a whole number in its
///   range.
/// - `Value` with the index of a data cell if the cell is not the number of a value.
///
/// Returns `Memory` if an allocation fails.
#[inline]
pub fn from_json<T: TrieValue>(value: &Value) -> Result<CodePointTrie<'static, T>, TrieJsonError> {
    if !value.is_object() {
        return Err(TrieJsonError::Shape(""));
    }
    let header = header_at(value)?;
    let index = cells_of(items_at(value, "index")?)?;
    let values = values_of(items_at(value, "data")?)?;
    let trie = trie_with(header, &index, &values)?;
    Ok(trie)
}

/// Writes the trie as a JSON value that [`from_json`] can read: an object with the keys `header`,
/// `index` and `data`.
///
/// ```
/// use bekstaudi::codepointtrie::json::to_json;
/// use bekstaudi::codepointtrie::planes::get_planes_trie;
///
/// let value = to_json(&get_planes_trie())?;
/// assert_eq!(value["header"]["trie_type"], "Small");
/// # Ok::<(), Box<dyn std::error::Error>>(())
/// ```
///
/// # Errors
/// Returns `MemoryError` if an allocation fails.
#[inline]
pub fn to_json<T: TrieValue>(trie: &CodePointTrie<'_, T>) -> Result<Value, MemoryError> {
    let (header, index, values) = trie.parts();
    let header = header_json(header)?;
    let index = numbers_json(index)?;
    let data = numbers_json(values)?;
    let value = object_of(header, index, data)?;
    Ok(value)
}

impl core::fmt::Display for TrieJsonError {
    #[inline]
    fn fmt(&self, f: &mut core::fmt::Formatter<'_>) -> core::fmt::Result {
        match self {
            TrieJsonError::Shape(field) => {
                write!(f, "no value of the right kind at the key `{field}`")
            }
            TrieJsonError::Number(field) => {
                write!(f, "no whole number in its range at the key `{field}`")
            }
            TrieJsonError::Value(field) => {
                write!(f, "cell {field} of the data is the number of no value")
            }
            TrieJsonError::Trie(field) => write!(f, "{field}"),
            TrieJsonError::Memory => f.write_str("no memory"),
        }
    }
}

impl core::error::Error for TrieJsonError {}
