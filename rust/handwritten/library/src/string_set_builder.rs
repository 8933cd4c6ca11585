//! The builder of sets of code points and strings: that of the code points beside a list of strings.

use crate::codepointinvlist::{CodePointInversionList, CodePointInversionListBuilder};
use crate::codepointinvliststringlist::CodePointInversionListAndStringList;
use crate::plain::{plain, plain_calls};
use crate::support::prelude::{String, TryString, TryVec, Vec};
use crate::zerovec::MemoryError;

/// Builds a [`CodePointInversionListAndStringList`]: texts and sets are added and removed in any
/// order.
///
/// If an allocation fails, a method panics. If its name starts with `try_`, it returns
/// [`MemoryError`] instead and leaves the set unchanged.
///
/// ```
/// use bekstaudi::codepointinvliststringlist::{
///     CodePointInversionListAndStringList, CodePointInversionListAndStringListBuilder,
/// };
///
/// let mut builder = CodePointInversionListAndStringListBuilder::new();
/// builder.add_str("xyz");
/// builder.add_str("q");
/// builder.code_points_mut().add_range('a'..='f');
/// builder.remove_set(&["b", "xyz"].into_iter().collect());
/// builder.add_set(&["abc", "b"].into_iter().collect());
/// builder.code_points_mut().remove_char('q');
/// let set = builder.build();
/// assert!(set.contains('b') && !set.contains('q'));
/// assert_eq!(set.strings(), ["abc"]);
/// ```
#[derive(Clone, Debug, Default)]
pub struct CodePointInversionListAndStringListBuilder {
    code_points: CodePointInversionListBuilder,
    /// In the order in which they were added; one may be there twice.
    strings: Vec<String>,
}

impl CodePointInversionListAndStringListBuilder {
    /// Returns a builder of the empty set. Does not allocate.
    #[must_use]
    pub const fn new() -> Self {
        CodePointInversionListAndStringListBuilder {
            code_points: CodePointInversionListBuilder::new(),
            strings: Vec::new(),
        }
    }

    /// Returns the builder of the set's code points, for example to add ranges.
    pub const fn code_points_mut(&mut self) -> &mut CodePointInversionListBuilder {
        &mut self.code_points
    }

    plain_calls! {
        /// Adds a text: a code point if it has exactly one character, and otherwise a string (ICU:
        /// `UnicodeSet::add`).
        add_str = try_add_str(text: &str);
        /// Adds all code points and strings in `set` (ICU: `UnicodeSet::addAll`).
        add_set = try_add_set(set: &CodePointInversionListAndStringList<'_>);
        /// Removes a text: a code point if it has exactly one character, and otherwise a string
        /// (ICU: `UnicodeSet::remove`).
        remove_str = try_remove_str(text: &str);
        /// Removes all code points and strings in `set` (ICU: `UnicodeSet::removeAll`).
        remove_set = try_remove_set(set: &CodePointInversionListAndStringList<'_>);
        /// Removes all code points and strings that are not in `set` (ICU: `UnicodeSet::retainAll`).
        retain_set = try_retain_set(set: &CodePointInversionListAndStringList<'_>);
    }

    /// Adds a text: a code point if it has exactly one character, and otherwise a string.
    ///
    /// # Errors
    /// Returns [`MemoryError`] if an allocation fails. The builder is then unchanged.
    pub fn try_add_str(&mut self, text: &str) -> Result<(), MemoryError> {
        if let Some(c) = only_char(text) {
            return self.code_points.try_add_char(c);
        }
        let string = String::from_str(text)?;
        self.strings.try_push(string)?;
        Ok(())
    }

    /// Adds all code points and strings in `set`.
    ///
    /// # Errors
    /// Returns [`MemoryError`] if an allocation fails. The builder is then unchanged.
    pub fn try_add_set(
        &mut self,
        set: &CodePointInversionListAndStringList<'_>,
    ) -> Result<(), MemoryError> {
        let copy = set.try_clone_with(CodePointInversionList::default())?;
        self.strings.try_room(set.strings().len())?;
        self.code_points.try_add_set(set.code_points())?;
        self.strings.append(&mut copy.into_strings());
        Ok(())
    }

    /// Removes a text: a code point if it has exactly one character, and otherwise a string.
    ///
    /// # Errors
    /// Returns [`MemoryError`] if an allocation fails. The builder is then unchanged.
    pub fn try_remove_str(&mut self, text: &str) -> Result<(), MemoryError> {
        if let Some(c) = only_char(text) {
            return self.code_points.try_remove_char(c);
        }
        self.strings.retain(|it| it != text);
        Ok(())
    }

    /// Removes all code points and strings in `set`.
    ///
    /// # Errors
    /// Returns [`MemoryError`] if an allocation fails. The builder is then unchanged.
    pub fn try_remove_set(
        &mut self,
        set: &CodePointInversionListAndStringList<'_>,
    ) -> Result<(), MemoryError> {
        self.code_points.try_remove_set(set.code_points())?;
        self.strings.retain(|it| !set.contains_str(it));
        Ok(())
    }

    /// Removes all code points and strings that are not in `set`.
    ///
    /// # Errors
    /// Returns [`MemoryError`] if an allocation fails. The builder is then unchanged.
    pub fn try_retain_set(
        &mut self,
        set: &CodePointInversionListAndStringList<'_>,
    ) -> Result<(), MemoryError> {
        self.code_points.try_retain_set(set.code_points())?;
        self.strings.retain(|it| set.contains_str(it));
        Ok(())
    }

    /// Returns the set, which owns its code points and strings.
    ///
    /// # Errors
    /// Returns [`MemoryError`] if an allocation fails. The builder is then dropped.
    pub fn try_build(
        mut self,
    ) -> Result<CodePointInversionListAndStringList<'static>, MemoryError> {
        self.strings.sort_unstable();
        self.strings.dedup();
        let code_points = self.code_points.try_build()?;
        Ok(CodePointInversionListAndStringList::from_sorted(code_points, self.strings))
    }

    /// Returns the set, which owns its code points and strings.
    ///
    /// # Panics
    /// Panics if an allocation fails; [`try_build`](Self::try_build) returns an error then.
    #[must_use]
    pub fn build(self) -> CodePointInversionListAndStringList<'static> {
        plain(self.try_build())
    }
}

/// Returns the character of a text that has exactly one.
fn only_char(text: &str) -> Option<char> {
    let mut chars = text.chars();
    chars.next().filter(|_| chars.next().is_none())
}

/// Adds each text, as [`add_str`](CodePointInversionListAndStringListBuilder::add_str) does.
///
/// # Panics
/// Panics if an allocation fails.
impl<'text> Extend<&'text str> for CodePointInversionListAndStringListBuilder {
    fn extend<I: IntoIterator<Item = &'text str>>(&mut self, texts: I) {
        for text in texts {
            self.add_str(text);
        }
    }
}
