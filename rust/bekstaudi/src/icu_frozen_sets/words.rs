//! The words of a frozen set, made of the boundaries of a set.

use crate::icu_frozen_sets::filling::Filling;
use crate::icu_invlist::boundaries::Boundaries;
use crate::icu_zerovec::{CODE_POINT_LIMIT, MemoryError};
use crate::support::prelude::*;

/// Returns the last boundary that is not the end of the code space, or 0 if there is none.
#[inline]
fn last_boundary<B: Boundaries>(ends: B) -> u32 {
    let count = ends.count();
    if count < 2 {
        return 0;
    }
    let last = ends.at(count - 1);
    if last < CODE_POINT_LIMIT {
        last
    } else {
        ends.at(count - 2)
    }
}

/// Returns the words of the frozen set with these boundaries, in the form that
/// [`FrozenView`](crate::icu_frozen_sets::view::FrozenView) reads.
///
/// # Errors
/// Returns `MemoryError` if an allocation fails.
#[inline]
pub(crate) fn frozen_words<B: Boundaries>(ends: B) -> Result<Vec<u64>, MemoryError> {
    let ranges = ends.count() / 2;
    let mut filling = Filling::new(last_boundary(ends), ranges)?;
    for i in 0..ranges {
        filling.add(ends.at(2 * i), ends.at(2 * i + 1))?;
    }
    let words = filling.finish()?;
    Ok(words)
}
