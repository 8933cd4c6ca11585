//! Equality and hashing of vectors, by their lists of values, for every lawful type.

use crate::icu_zerovec::cells;
use crate::icu_zerovec::ule::AsULE;
use crate::icu_zerovec::vec::ZeroVec;
use crate::support::prelude::*;
use core::hash::{Hash, Hasher};

impl<'a, T: AsULE> PartialEq for ZeroVec<'a, T> {
    #[inline]
    fn eq(&self, other: &Self) -> bool {
        cells::same::<T>(self.bytes(), other.bytes())
    }
}

impl<'a, T: AsULE> Eq for ZeroVec<'a, T> {}

impl<'a, T: AsULE> Hash for ZeroVec<'a, T> {
    #[inline]
    fn hash<H: Hasher>(&self, state: &mut H) {
        cells::feed::<T, H>(self.bytes(), state);
    }
}
