//! The ranges in which two tables differ.

use crate::host::*;
use crate::support::AllocError;
use crate::support::prelude::*;
use crate::ucptab_table::text::push_dotted;
use crate::ucptrie_tables::sizes::stored_values;
use bekstaudi::codepointtrie::CodePointMapRange;
use bekstaudi::codepointtrie::CodePointTrie;
use bekstaudi::zerovec::CODE_POINT_LIMIT;

/// Returns the values of the number `c` in two tries.
fn values_at(
    first: &CodePointTrie<'_, u32>,
    second: &CodePointTrie<'_, u32>,
    c: u32,
) -> (u32, u32) {
    (first.get32(c), second.get32(c))
}

/// Returns the number of code points before those at which both tries have their high value.
fn stored_in_both(first: &CodePointTrie<'_, u32>, second: &CodePointTrie<'_, u32>) -> u32 {
    stored_values(first).max(stored_values(second))
}

/// Returns the exclusive end of the code points from `c` on that have these two values. From
/// `stored` on, each code point has the two values of the last one.
fn end_of_values(
    first: &CodePointTrie<'_, u32>,
    second: &CodePointTrie<'_, u32>,
    stored: u32,
    c: u32,
    values: (u32, u32),
) -> u32 {
    if stored <= c {
        return CODE_POINT_LIMIT;
    }
    for next in c + 1..stored {
        if values_at(first, second, next) != values {
            return next;
        }
    }
    if values_at(first, second, CODE_POINT_LIMIT - 1) == values {
        CODE_POINT_LIMIT
    } else {
        stored
    }
}

/// Returns the ranges of code points whose values differ in two tries, in ascending order.
///
/// Each range has the two values of its code points and is as long as possible.
///
/// # Errors
/// Returns [`AllocError`] if an allocation fails.
pub fn differences(
    first: &CodePointTrie<'_, u32>,
    second: &CodePointTrie<'_, u32>,
) -> Result<Vec<CodePointMapRange<(u32, u32)>>, AllocError> {
    let stored = stored_in_both(first, second);
    let mut found = Vec::new();
    let mut start = 0;
    while start < CODE_POINT_LIMIT {
        let values = values_at(first, second, start);
        let end = end_of_values(first, second, stored, start, values);
        if values.0 != values.1 {
            found.try_push(CodePointMapRange {
                range: start..=end - 1,
                value: values,
            })?;
        }
        start = end;
    }
    Ok(found)
}

/// Appends the end of a line: a number in at least four hexadecimal digits, and two values.
fn push_values(text: &mut String, n: u32, values: (u32, u32)) -> Result<(), AllocError> {
    let (first, second) = values;
    writeln!(text, "{n:04X};{first};{second}")
}

/// Appends the line of a range, `HEX..HEX;A;B`, or `HEX;A;B` if it is one code point.
fn push_difference(
    text: &mut String,
    difference: &CodePointMapRange<(u32, u32)>,
) -> Result<(), AllocError> {
    let (start, end) = (*difference.range.start(), *difference.range.end());
    if start < end {
        push_dotted(text, start)?;
        push_values(text, end, difference.value)
    } else {
        push_values(text, end, difference.value)
    }
}

/// Appends the line of the two error values if they differ: a comment, as in `ucptab`'s form.
fn push_errors(text: &mut String, first: u32, second: u32) -> Result<(), AllocError> {
    if first != second {
        writeln!(text, "# above 10FFFF;{first};{second}")?;
    }
    Ok(())
}

/// Returns the lines of the ranges in which two tries differ, in order, and then, as a comment, the
/// two error values if they differ.
///
/// # Errors
/// Returns [`AllocError`] if an allocation fails.
pub fn differences_text(
    first: &CodePointTrie<'_, u32>,
    second: &CodePointTrie<'_, u32>,
) -> Result<String, AllocError> {
    let mut text = String::new();
    let found = differences(first, second)?;
    for difference in &found {
        push_difference(&mut text, difference)?;
    }
    push_errors(&mut text, first.error_value(), second.error_value())?;
    Ok(text)
}
