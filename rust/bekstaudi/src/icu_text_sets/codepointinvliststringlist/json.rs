//! Conversion of sets of code points and strings to and from JSON.

#![cfg(feature = "json")]
use crate::icu_invlist::codepointinvlist::{CodePointInversionList, SetJsonError};
use crate::icu_text_sets::codepointinvliststringlist::error::StringListJsonError;
use crate::icu_text_sets::codepointinvliststringlist::set::CodePointInversionListAndStringList;
use crate::icu_zerovec::MemoryError;
use crate::support::prelude::*;
use serde_json::{Value, json};

/// Returns the strings as JSON strings, in order.
#[inline]
fn items_of(strings: &[String]) -> Result<Vec<Value>, MemoryError> {
    let mut items = Vec::with_room(strings.len())?;
    for text in strings {
        items.try_push(Value::String(String::from_str(text.as_str())?))?;
    }
    Ok(items)
}

/// Returns the JSON object of a set, from its code points and strings in JSON.
#[inline]
fn object_of(code_points: Value, strings: Vec<Value>) -> Result<Value, MemoryError> {
    Ok(
        crate::support::try_json!({ "cp_inv_list": code_points, "str_list": Value::Array(strings) })?,
    )
}

/// Returns the strings in the items, in order.
fn strings_of_items(items: &[Value]) -> Result<Vec<String>, StringListJsonError> {
    let Ok(mut strings) = Vec::with_room(items.len()) else {
        return Err(StringListJsonError::Memory);
    };
    for (i, item) in items.iter().enumerate() {
        let Some(text) = item.as_str() else {
            return Err(StringListJsonError::NotAString(i));
        };
        let Ok(string) = String::from_str(text) else {
            return Err(StringListJsonError::Memory);
        };
        let Ok(()) = strings.try_push(string) else {
            return Err(StringListJsonError::Memory);
        };
    }
    Ok(strings)
}

/// Returns the strings in the array at the key `str_list`.
#[inline]
fn strings_of(value: &Value) -> Result<Vec<String>, StringListJsonError> {
    let Some(strings) = value.get("str_list") else {
        return Err(StringListJsonError::Shape("str_list"));
    };
    let Some(items) = strings.as_array() else {
        return Err(StringListJsonError::Shape("str_list"));
    };
    strings_of_items(items)
}

/// Converts the error of reading the set of code points.
#[inline]
fn set_error(error: SetJsonError) -> StringListJsonError {
    StringListJsonError::from(error)
}

impl<'data> CodePointInversionListAndStringList<'data> {
    /// Returns the set as a JSON object. The key `cp_inv_list` has the code points as
    /// [`CodePointInversionList::to_json`] writes them, and `str_list` has the array of the
    /// strings, in order.
    ///
    /// ```
    /// use bekstaudi::codepointinvliststringlist::CodePointInversionListAndStringList;
    ///
    /// let set: CodePointInversionListAndStringList = ["a", "abc"].into_iter().collect();
    /// let text = set.to_json()?.to_string();
    /// assert_eq!(text, r#"{"cp_inv_list":["a"],"str_list":["abc"]}"#);
    /// # Ok::<(), Box<dyn std::error::Error>>(())
    /// ```
    ///
    /// # Errors
    /// Returns `MemoryError` if an allocation fails.
    #[inline]
    pub fn to_json(&self) -> Result<Value, MemoryError> {
        let code_points = self.cp_inv_list.to_json()?;
        let strings = items_of(&self.str_list)?;
        let value = object_of(code_points, strings)?;
        Ok(value)
    }

    /// Returns the set in a JSON object of the form that [`to_json`](Self::to_json) writes. Other
    /// keys are ignored.
    ///
    /// ```
    /// use bekstaudi::codepointinvliststringlist::CodePointInversionListAndStringList;
    ///
    /// let value = serde_json::json!({"cp_inv_list": ["a"], "str_list": ["abc"]});
    /// let set = CodePointInversionListAndStringList::from_json(&value)?;
    /// assert!(set.contains('a') && set.contains_str("abc"));
    /// # Ok::<(), Box<dyn std::error::Error>>(())
    /// ```
    ///
    /// # Errors
    /// Returns the first error in this order:
    /// - `Shape("")` if `value` is not an object,
    /// - `Shape("cp_inv_list")` if it does not have this key,
    /// - `Set` if [`CodePointInversionList::from_json`] rejects the value at that key,
    /// - `Shape("str_list")` if it does not have this key, or the value at that key is not an
    ///   array,
    /// - `NotAString` with the index of the first item that is not a string,
    /// - `Strings` if [`try_from`](Self::try_from) rejects the strings.
    ///
    /// Returns `Memory` if an allocation fails, whatever the value is.
    pub fn from_json(
        value: &Value,
    ) -> Result<CodePointInversionListAndStringList<'static>, StringListJsonError> {
        if value.as_object().is_none() {
            return Err(StringListJsonError::Shape(""));
        }
        let Some(code_points) = value.get("cp_inv_list") else {
            return Err(StringListJsonError::Shape("cp_inv_list"));
        };
        let cp_inv_list = match CodePointInversionList::from_json(code_points) {
            Ok(set) => set,
            Err(error) => return Err(set_error(error)),
        };
        let str_list = strings_of(value)?;
        match CodePointInversionListAndStringList::try_from(cp_inv_list, str_list) {
            Ok(set) => Ok(set),
            Err(error) => Err(StringListJsonError::Strings(error)),
        }
    }
}
