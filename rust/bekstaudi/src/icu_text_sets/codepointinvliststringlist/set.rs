//! The set of code points and strings, and its queries.

use crate::icu_invlist::codepointinvlist::CodePointInversionList;
use crate::icu_zerovec::MemoryError;
use crate::support::prelude::*;

/// A set of code points, which may include surrogates, and of strings, like ICU's UnicodeSet. A
/// string is any text, even the empty one, that does not have exactly one code point.
///
/// It borrows or owns its code points, and owns its strings. The strings are sorted by their bytes,
/// without duplicates.
///
/// ```
/// use bekstaudi::codepointinvliststringlist::CodePointInversionListAndStringList;
///
/// let texts = ["a", "abc", "xyz", "abc"];
/// let set: CodePointInversionListAndStringList = texts.into_iter().collect();
/// assert!(set.contains('a') && set.contains_str("abc"));
/// assert!(!set.contains_str("ab"));
/// assert_eq!(set.size(), 3);
/// ```
#[derive(Debug)]
pub struct CodePointInversionListAndStringList<'data> {
    pub(super) cp_inv_list: CodePointInversionList<'data>,
    pub(super) str_list: Vec<String>,
}

/// Returns the character of a text that has exactly one.
pub(super) fn only_char(text: &str) -> Option<char> {
    let mut chars = text.chars();
    let first = chars.next()?;
    match chars.next() {
        None => Some(first),
        Some(_) => None,
    }
}

/// Returns the index of a text among the strings of a set, or as `Err` the index at which it could
/// be inserted.
pub(super) fn find(strings: &[String], text: &str) -> Result<usize, usize> {
    strings.binary_search_by(|string| string.as_str().cmp(text))
}

/// Returns copies of the strings.
#[inline]
fn copied(strings: &[String]) -> Result<Vec<String>, MemoryError> {
    let mut copies = Vec::with_room(strings.len())?;
    for string in strings {
        copies.try_push(String::from_str(string.as_str())?)?;
    }
    Ok(copies)
}

/// Copies.
impl<'data> CodePointInversionListAndStringList<'data> {
    /// Returns an equal set that owns its code points and strings.
    ///
    /// # Errors
    /// Returns `MemoryError` if an allocation fails.
    #[inline]
    pub fn try_clone(&self) -> Result<CodePointInversionListAndStringList<'static>, MemoryError> {
        Ok(CodePointInversionListAndStringList {
            cp_inv_list: self.cp_inv_list.try_clone()?,
            str_list: copied(&self.str_list)?,
        })
    }
}

/// Queries. None of them allocates.
impl<'data> CodePointInversionListAndStringList<'data> {
    /// Returns the number of members of the set: its code points, including surrogates, and its
    /// strings.
    #[must_use]
    #[inline]
    pub fn size(&self) -> usize {
        self.cp_inv_list.size() + self.str_list.len()
    }

    /// Returns true if the set has at least one string.
    #[must_use]
    #[inline]
    pub const fn has_strings(&self) -> bool {
        !self.str_list.is_empty()
    }

    /// Returns true if the set contains the text: as a code point if it has exactly one character,
    /// and otherwise as a string.
    #[must_use]
    #[inline]
    pub fn contains_str(&self, text: &str) -> bool {
        match only_char(text) {
            Some(c) => self.cp_inv_list.contains(c),
            None => find(&self.str_list, text).is_ok(),
        }
    }

    /// Returns true if `bytes` are the UTF-8 of a text that the set contains, as defined by
    /// [`contains_str`](Self::contains_str). Returns false if they are not valid UTF-8.
    #[must_use]
    #[inline]
    pub fn contains_utf8(&self, bytes: &[u8]) -> bool {
        match str::from_utf8(bytes) {
            Ok(text) => self.contains_str(text),
            Err(_) => false,
        }
    }

    /// Returns true if the set contains the code point `cp`. Returns false for any number above
    /// 0x10FFFF.
    #[must_use]
    #[inline]
    pub fn contains32(&self, cp: u32) -> bool {
        self.cp_inv_list.contains32(cp)
    }

    /// Returns true if the set contains the character `ch`.
    #[must_use]
    #[inline]
    pub fn contains(&self, ch: char) -> bool {
        self.cp_inv_list.contains(ch)
    }

    /// Returns a reference to the code points of the set.
    #[must_use]
    #[inline]
    pub const fn code_points(&self) -> &CodePointInversionList<'data> {
        &self.cp_inv_list
    }

    /// Returns a reference to the strings of the set, sorted by their bytes.
    #[must_use]
    #[inline]
    pub const fn string_slice(&self) -> &[String] {
        self.str_list.as_slice()
    }
}

impl<'data> CodePointInversionListAndStringList<'data> {
    /// Returns a set of these code points and of copies of the strings of this set.
    pub(crate) fn try_clone_with<'a>(
        &self,
        code_points: CodePointInversionList<'a>,
    ) -> Result<CodePointInversionListAndStringList<'a>, MemoryError> {
        Ok(CodePointInversionListAndStringList {
            cp_inv_list: code_points,
            str_list: copied(&self.str_list)?,
        })
    }

    /// Returns the set of these code points and strings. The strings ascend, and none has exactly one
    /// character.
    pub(crate) fn from_sorted(
        cp_inv_list: CodePointInversionList<'data>,
        str_list: Vec<String>,
    ) -> Self {
        CodePointInversionListAndStringList {
            cp_inv_list,
            str_list,
        }
    }

    /// Returns the strings of the set.
    pub(crate) fn into_strings(self) -> Vec<String> {
        self.str_list
    }

    /// Returns the same set, which then owns its code points. The strings are not copied, nor code
    /// points that the set already owns.
    ///
    /// # Errors
    /// Returns `MemoryError` if an allocation fails. The set is then dropped.
    pub fn try_into_owned(
        self,
    ) -> Result<CodePointInversionListAndStringList<'static>, MemoryError> {
        Ok(CodePointInversionListAndStringList {
            cp_inv_list: self.cp_inv_list.try_into_owned()?,
            str_list: self.str_list,
        })
    }
}
