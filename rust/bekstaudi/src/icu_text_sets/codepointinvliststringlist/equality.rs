//! Equality: two sets are equal if and only if they contain the same code points and strings.

use crate::icu_text_sets::codepointinvliststringlist::set::CodePointInversionListAndStringList;
use crate::support::prelude::*;

/// Compares the boundaries and the strings, because each set has exactly one list of either.
/// Whether a set borrows or owns its code points makes no difference.
impl<'data> PartialEq for CodePointInversionListAndStringList<'data> {
    #[inline]
    fn eq(&self, other: &Self) -> bool {
        self.cp_inv_list == other.cp_inv_list && self.str_list == other.str_list
    }
}

impl<'data> Eq for CodePointInversionListAndStringList<'data> {}
