//! A set in TOML, as ICU's icuexportdata writes it.

use crate::host::*;
use crate::support::AllocError;
use crate::support::prelude::*;
use crate::ucptab_table::pattern::Number::Hexadecimal;
use crate::ucptab_table::pattern::{push_named, push_pattern};
use bekstaudi::codepointinvlist::CodePointInversionList;
use core::ops::RangeInclusive;

/// What precedes the ranges. Each `@` is replaced by the name.
const HEAD: &str = "\
[[binary_property]]
long_name = \"@\"
short_name = \"@\"
# Inclusive ranges of the code points in the set.
ranges = [
";

/// Appends what precedes the ranges.
fn push_head(text: &mut String, name: &str) -> Result<(), AllocError> {
    push_named(text, HEAD, name)
}

/// Appends the line of a range.
fn push_range(text: &mut String, range: &RangeInclusive<u32>) -> Result<(), AllocError> {
    let bounds = [Hexadecimal(*range.start()), Hexadecimal(*range.end())];
    push_pattern(text, "  [%, %],\n", "", &bounds)
}

/// Appends the lines of the ranges of a set, in ascending order.
fn push_ranges(text: &mut String, set: &CodePointInversionList<'_>) -> Result<(), AllocError> {
    for range in set.iter_ranges() {
        push_range(text, &range)?;
    }
    Ok(())
}

/// Returns the set in TOML: a property with this long and short name.
pub(crate) fn toml_text(
    set: &CodePointInversionList<'_>,
    name: &str,
) -> Result<String, AllocError> {
    let mut text = String::new();
    push_head(&mut text, name)?;
    push_ranges(&mut text, set)?;
    text.try_push_str("]\n")?;
    Ok(text)
}
