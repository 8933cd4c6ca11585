//! The names of values as lines `NUMBER;NAME`, for users of a table in a form without names.

use crate::host::*;
use crate::support::AllocError;
use crate::support::BTreeMap;
use crate::support::prelude::*;
use crate::ucd_files::names::Name;
use crate::ucptab_table::pattern::Number::Decimal;
use crate::ucptab_table::pattern::push_number;
use crate::ucptrie_names::value_names::name_length;

/// Sets the name of its number, unless the number has a name that is as long.
fn set_longest<'a>(
    longest: &mut BTreeMap<usize, &'a [u8]>,
    name: &Name<'a>,
) -> Result<(), AllocError> {
    if let Some(text) = longest.get(&name.number)
        && name_length(name.text) <= name_length(text)
    {
        return Ok(());
    }
    longest.try_insert(name.number, name.text)?;
    Ok(())
}

/// Returns the longest name of each number, in ascending order of the numbers.
fn longest_names<'a>(names: &[Name<'a>]) -> Result<BTreeMap<usize, &'a [u8]>, AllocError> {
    let mut longest = BTreeMap::new();
    let mut rest = names;
    while let [name, after @ ..] = rest {
        set_longest(&mut longest, name)?;
        rest = after;
    }
    Ok(longest)
}

/// Appends the line of a number.
fn push_line(lines: &mut Vec<u8>, number: usize, name: &[u8]) -> Result<(), AllocError> {
    let mut start = String::new();
    push_number(&mut start, Decimal(number))?;
    start.try_push(';')?;
    lines.try_extend_from_slice(start.as_bytes())?;
    lines.try_extend_from_slice(name)?;
    lines.try_push(b'\n')?;
    Ok(())
}

/// Returns a line `NUMBER;NAME` for each number that has a name, in ascending order of the numbers,
/// as the bytes of a file. There are as many as there are numbers with a name.
///
/// Of several names of a number it is the longest, and of several of these the first, as in
/// [`enum_values`](crate::ucptrie_names::value_names::enum_values). It is written byte for byte. The empty name is
/// that of code points without a line.
///
/// # Errors
/// Returns [`AllocError`] if an allocation fails.
pub fn names_list(names: &[Name<'_>]) -> Result<Vec<u8>, AllocError> {
    let longest = longest_names(names)?;
    let mut lines = Vec::new();
    for (number, name) in &longest {
        push_line(&mut lines, *number, name)?;
    }
    Ok(lines)
}
