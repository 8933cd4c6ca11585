//! A set as rows, as `ucptab` and `ucptrie build` read them.

use crate::host::*;
use crate::support::AllocError;
use crate::support::prelude::*;
use crate::ucptab_table::text::push_dotted;
use bekstaudi::codepointinvlist::CodePointInversionList;
use core::ops::RangeInclusive;

/// Appends the row of a code point: the code point, in at least four hexadecimal digits, and 1.
fn push_point(text: &mut String, c: u32) -> Result<(), AllocError> {
    writeln!(text, "{c:04X};1")
}

/// Appends the row of a range, or of its one code point.
fn push_range(text: &mut String, range: &RangeInclusive<u32>) -> Result<(), AllocError> {
    let (first, last) = (*range.start(), *range.end());
    if first < last {
        push_dotted(text, first)?;
        push_point(text, last)
    } else {
        push_point(text, last)
    }
}

/// Returns a row with the value 1 for each range of the set, in ascending order.
///
/// # Errors
/// Returns [`AllocError`] if an allocation fails.
pub(crate) fn rows_text(set: &CodePointInversionList<'_>) -> Result<String, AllocError> {
    let mut text = String::new();
    for range in set.iter_ranges() {
        push_range(&mut text, &range)?;
    }
    Ok(text)
}
