//! Sets of code points and of longer strings.
//!
//! [`CodePointInversionListAndStringListBuilder`] builds a
//! [`CodePointInversionListAndStringList`] from texts and sets.
//!
//! ```
//! use bekstaudi::codepointinvliststringlist::CodePointInversionListAndStringList;
//!
//! let set: CodePointInversionListAndStringList = ["a", "abc", "xyz"].into_iter().collect();
//! assert!(set.contains('a') && set.contains_str("xyz") && !set.contains_str("b"));
//! assert_eq!(set.size(), 3);
//! ```

#[cfg(feature = "json")]
pub use crate::icu_text_sets::codepointinvliststringlist::StringListJsonError;
pub use crate::icu_text_sets::codepointinvliststringlist::{
    CodePointInversionListAndStringList, InvalidStringList,
};
pub use crate::string_set_builder::CodePointInversionListAndStringListBuilder;
pub use crate::strings::{Strings, StringsIter};

use crate::codepointinvlist::CodePointInversionList;
use crate::plain::plain;
use crate::support::prelude::{String, Vec};

/// Borrows the code points if the set borrows them, and copies all else.
///
/// # Panics
/// Panics if an allocation fails; `try_clone` returns an error then.
impl Clone for CodePointInversionListAndStringList<'_> {
    fn clone(&self) -> Self {
        plain(self.try_clone_with(self.code_points().clone()))
    }
}

impl<'data> CodePointInversionListAndStringList<'data> {
    /// Returns the set with these code points and strings, which it takes over.
    ///
    /// # Errors
    /// Returns the first fault in `str_list`, with the strings at fault. Each string is tested in
    /// this order:
    /// - `InvalidStringLength` if the string has exactly one code point,
    /// - `StringListNotUnique` if the next string is equal,
    /// - `StringListNotSorted` with both strings if the next string is less, compared by bytes.
    #[inline]
    pub fn try_from(
        cp_inv_list: CodePointInversionList<'data>,
        str_list: impl Into<Vec<String>>,
    ) -> Result<Self, InvalidStringList> {
        Self::try_from_explained(cp_inv_list, str_list.into())
    }
}

impl CodePointInversionListAndStringList<'_> {
    /// Returns the same set, which then owns its code points. The strings are not copied, nor code
    /// points that the set already owns.
    ///
    /// # Panics
    /// Panics if an allocation fails; [`try_into_owned`](Self::try_into_owned) returns an error
    /// then.
    #[must_use]
    pub fn into_owned(self) -> CodePointInversionListAndStringList<'static> {
        plain(self.try_into_owned())
    }

    /// Returns the strings of the set, sorted by their bytes.
    #[must_use]
    pub fn strings(&self) -> Strings<'_> {
        Strings::new(self.string_slice())
    }
}

/// # Panics
/// Panics if an allocation fails; [`CodePointInversionListAndStringList::try_from_iter`] returns an
/// error then.
impl<'text> FromIterator<&'text str> for CodePointInversionListAndStringList<'_> {
    fn from_iter<I: IntoIterator<Item = &'text str>>(texts: I) -> Self {
        plain(CodePointInversionListAndStringList::try_from_iter(
            texts.into_iter(),
        ))
    }
}
