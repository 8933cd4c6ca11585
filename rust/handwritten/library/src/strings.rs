//! The list of strings of a set.

use alloc::string::{String, ToString};
use alloc::vec::Vec;
use core::fmt;
use core::iter::Map;
use core::marker::PhantomData;
use core::ops::Index;
use core::slice;

/// The strings of a set, sorted by their bytes, without duplicates.
///
/// It borrows them from the set and is `Copy`.
#[derive(Clone, Copy, PartialEq, Eq, PartialOrd, Ord, Hash)]
pub struct Strings<'a> {
    strings: &'a [String],
}

/// An iterator over the strings of a set.
pub type StringsIter<'a> = Map<slice::Iter<'a, String>, fn(&'a String) -> &'a str>;

impl<'a> Strings<'a> {
    pub(crate) fn new(strings: &'a [String]) -> Self {
        Strings { strings }
    }

    /// Returns the strings as a slice.
    #[must_use]
    pub const fn as_slice(self) -> &'a [String] {
        self.strings
    }

    /// Returns the number of strings.
    #[must_use]
    pub const fn len(self) -> usize {
        self.strings.len()
    }

    /// Returns true if there are no strings.
    #[must_use]
    pub const fn is_empty(self) -> bool {
        self.strings.is_empty()
    }

    /// Returns the string at index `i`, counted from 0, or `None` if `i` is not less than the number
    /// of strings.
    #[must_use]
    pub fn get(self, i: usize) -> Option<&'a str> {
        self.strings.get(i).map(String::as_str)
    }

    /// Returns an iterator over the strings.
    pub fn iter(self) -> StringsIter<'a> {
        self.strings.iter().map(String::as_str)
    }

    /// Returns copies of the strings.
    ///
    /// # Panics
    /// Panics if an allocation fails.
    #[must_use]
    pub fn to_vec(self) -> Vec<String> {
        self.strings.to_vec()
    }

    /// Searches for a string and returns its index.
    ///
    /// # Errors
    /// Returns the index at which the string could be inserted to keep the order if it is not there.
    pub fn binary_search(self, text: &str) -> Result<usize, usize> {
        self.strings.binary_search_by(|it| it.as_str().cmp(text))
    }
}

/// # Panics
/// Panics if the index is not less than the number of strings.
impl Index<usize> for Strings<'_> {
    type Output = str;

    fn index(&self, i: usize) -> &str {
        &self.strings[i]
    }
}

impl<'a> IntoIterator for Strings<'a> {
    type Item = &'a str;
    type IntoIter = StringsIter<'a>;

    fn into_iter(self) -> StringsIter<'a> {
        self.iter()
    }
}

impl<T: AsRef<str>> PartialEq<[T]> for Strings<'_> {
    fn eq(&self, other: &[T]) -> bool {
        self.iter().eq(other.iter().map(AsRef::as_ref))
    }
}

impl<T: AsRef<str>, const N: usize> PartialEq<[T; N]> for Strings<'_> {
    fn eq(&self, other: &[T; N]) -> bool {
        *self == other[..]
    }
}

/// Formats the strings as a list, like a slice: `["ab", "cd"]`.
impl fmt::Debug for Strings<'_> {
    fn fmt(&self, f: &mut fmt::Formatter<'_>) -> fmt::Result {
        f.debug_list().entries(*self).finish()
    }
}

/// A list of strings for [`try_from`] under the Rust crate's name. It is stored as a `Vec<String>`,
/// which [`try_from`] takes too.
///
/// ```
/// use bekstaudi::codepointinvlist::CodePointInversionList;
/// use bekstaudi::codepointinvliststringlist::CodePointInversionListAndStringList;
/// use bekstaudi::zerovec::VarZeroVec;
///
/// let strings = VarZeroVec::from(&["ab", "cd"]);
/// let digits = CodePointInversionList::try_from('0'..='9')?;
/// let set = CodePointInversionListAndStringList::try_from(digits, strings)?;
/// assert!(set.contains('7') && set.contains_str("cd"));
/// # Ok::<(), Box<dyn std::error::Error>>(())
/// ```
///
/// [`try_from`]: crate::codepointinvliststringlist::CodePointInversionListAndStringList::try_from
#[derive(Clone, Debug, PartialEq, Eq)]
pub struct VarZeroVec<'a, T: ?Sized> {
    strings: Vec<String>,
    of: PhantomData<&'a T>,
}

/// # Panics
/// Panics if an allocation fails.
impl<S: AsRef<str>> From<&[S]> for VarZeroVec<'_, str> {
    fn from(strings: &[S]) -> Self {
        VarZeroVec {
            strings: strings.iter().map(|it| it.as_ref().to_string()).collect(),
            of: PhantomData,
        }
    }
}

/// # Panics
/// Panics if an allocation fails.
impl<S: AsRef<str>, const N: usize> From<&[S; N]> for VarZeroVec<'_, str> {
    fn from(strings: &[S; N]) -> Self {
        VarZeroVec::from(strings.as_slice())
    }
}

impl From<VarZeroVec<'_, str>> for Vec<String> {
    fn from(list: VarZeroVec<'_, str>) -> Self {
        list.strings
    }
}
