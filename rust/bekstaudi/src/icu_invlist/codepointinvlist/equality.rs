//! Equality and hashing: two sets are equal, and have equal hashes, if they contain the same code
//! points.

use crate::icu_invlist::codepointinvlist::cpinvlist::CodePointInversionList;
use crate::support::prelude::*;
use core::hash::{Hash, Hasher};

/// Compares the packed boundaries, because each set has exactly one inversion list. Whether a set
/// borrows or owns its boundaries makes no difference.
impl<'data> PartialEq for CodePointInversionList<'data> {
    #[inline]
    fn eq(&self, other: &Self) -> bool {
        self.packed().as_bytes() == other.packed().as_bytes()
    }
}

impl<'data> Eq for CodePointInversionList<'data> {}

impl<'data> Hash for CodePointInversionList<'data> {
    #[inline]
    fn hash<H: Hasher>(&self, state: &mut H) {
        self.packed().hash(state);
    }
}
