//! Constructors of sets of code points and strings.

use crate::icu_invlist::codepointinvlist::{CodePointInversionList, CodePointInversionListBuilder};
use crate::icu_text_sets::codepointinvliststringlist::error::InvalidStringList;
use crate::icu_text_sets::codepointinvliststringlist::set::{
    CodePointInversionListAndStringList, only_char,
};
use crate::icu_zerovec::MemoryError;
use crate::support::prelude::*;
use core::cmp::Ordering;

/// The fault of a string in a list.
#[derive(Clone, Copy)]
enum Fault {
    OneCodePoint,
    Repeated,
    Unsorted,
}

/// Returns the fault of a string, given the next one if there is one.
#[inline]
fn fault_before(text: &str, next: Option<&String>) -> Option<Fault> {
    if only_char(text).is_some() {
        return Some(Fault::OneCodePoint);
    }
    match text.cmp(next?.as_str()) {
        Ordering::Less => None,
        Ordering::Equal => Some(Fault::Repeated),
        Ordering::Greater => Some(Fault::Unsorted),
    }
}

/// Returns the first fault in a list and the index of its string.
#[inline]
fn first_fault(strings: &[String]) -> Option<(usize, Fault)> {
    for (i, text) in strings.iter().enumerate() {
        if let Some(fault) = fault_before(text, strings.get(i + 1)) {
            return Some((i, fault));
        }
    }
    None
}

/// Returns the error for a fault. Moves the strings at fault out of the list.
#[inline]
fn refused(mut strings: Vec<String>, place: usize, fault: Fault) -> InvalidStringList {
    match fault {
        Fault::OneCodePoint => InvalidStringList::InvalidStringLength(strings.swap_remove(place)),
        Fault::Repeated => InvalidStringList::StringListNotUnique(strings.swap_remove(place)),
        Fault::Unsorted => {
            let next = strings.remove(place + 1);
            InvalidStringList::StringListNotSorted(strings.swap_remove(place), next)
        }
    }
}

/// Appends a copy of `text` to `strings`.
#[inline]
fn push_text(strings: &mut Vec<String>, text: &str) -> Result<(), MemoryError> {
    let string = String::from_str(text)?;
    strings.try_push(string)?;
    Ok(())
}

/// Sorts strings by their bytes and removes duplicates, as in a set.
#[inline]
fn sort_strings(strings: &mut Vec<String>) {
    strings.sort_unstable();
    strings.dedup();
}

/// Constructors.
impl<'data> CodePointInversionListAndStringList<'data> {
    /// Returns the set with these code points and strings, which it takes over. This does not
    /// allocate.
    ///
    /// # Errors
    /// Returns the first fault in `str_list`, with the strings at fault. Each string is tested in
    /// this order:
    /// - `InvalidStringLength` if the string has exactly one code point,
    /// - `StringListNotUnique` if the next string is equal,
    /// - `StringListNotSorted` with both strings if the next string is less, compared by bytes.
    #[inline]
    pub(crate) fn try_from_explained(
        cp_inv_list: CodePointInversionList<'data>,
        str_list: Vec<String>,
    ) -> Result<Self, InvalidStringList> {
        match first_fault(&str_list) {
            None => Ok(CodePointInversionListAndStringList {
                cp_inv_list,
                str_list,
            }),
            Some((place, fault)) => Err(refused(str_list, place, fault)),
        }
    }

    /// Returns the set of the texts that `iter` yields.
    ///
    /// The texts may be in any order and may repeat. A text of exactly one character becomes a code
    /// point, and any other text becomes a string. The iterator must be finite.
    ///
    /// ```
    /// use bekstaudi::codepointinvliststringlist::CodePointInversionListAndStringList;
    ///
    /// let texts = ["a", "abc", "xyz", "abc"];
    /// let set = CodePointInversionListAndStringList::try_from_iter(texts.into_iter())?;
    /// assert!(set.contains('a'));
    /// assert_eq!(set.strings(), ["abc", "xyz"]);
    /// # Ok::<(), Box<dyn std::error::Error>>(())
    /// ```
    ///
    /// # Errors
    /// Returns `MemoryError` if an allocation fails. The iterator is then dropped with its
    /// remaining items.
    pub fn try_from_iter<'text, I: Iterator<Item = &'text str>>(
        iter: I,
    ) -> Result<Self, MemoryError> {
        let mut builder = CodePointInversionListBuilder::new();
        let mut str_list = Vec::new();
        for text in iter {
            match only_char(text) {
                Some(c) => builder.try_add_char(c)?,
                None => push_text(&mut str_list, text)?,
            }
        }
        sort_strings(&mut str_list);
        Ok(CodePointInversionListAndStringList {
            cp_inv_list: builder.try_build()?,
            str_list,
        })
    }
}
