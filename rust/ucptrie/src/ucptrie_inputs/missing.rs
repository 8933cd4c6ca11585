//! The values of code points without a line.
use crate::clap::ArgMatches;
use crate::host::*;
use crate::support::AllocError;
use crate::support::prelude::*;
use crate::ucd_files::choice::{Choice, ValueKind};
use crate::ucd_files::fields::{field, missing_of};
use crate::ucd_files::kind::are_digits;
use crate::ucd_files::missing_values::{MissingValue, missing_value, only_missing, only_name};
use crate::ucd_files::names::Numbering;
use crate::ucd_files::order::text_of_line;
use crate::ucd_files::statement::Columns;
use crate::ucd_files::title::title_of;
use crate::ucptab_table::input::lines;
use crate::ucptab_table::rows::{after, code_points_of, content_of, trimmed};
use crate::ucptrie_inputs::aliases::name_in_values;
use crate::ucptrie_inputs::error::{Error, about, said};
use crate::ucptrie_inputs::line_errors::file_fault;
use crate::ucptrie_inputs::numbering::UnicodeFile;
use crate::ucptrie_inputs::properties::push_text;
use crate::ucptrie_inputs::streams::say;

/// Returns the line about a value that only an `@missing` line has.
fn only_missing_line(name: &str, value: &[u8]) -> Result<String, AllocError> {
    let mut line = String::new();
    write!(line, "{name}: the value ")?;
    push_text(&mut line, value)?;
    line.try_push_str(" is only in an @missing line: give --property and --aliases ")?;
    line.try_push_str("PropertyValueAliases.txt, which has all names of each value")?;
    Ok(line)
}

/// Tests whether `@missing` lines and other lines use the same names of values, as far as can be
/// seen: with two names in `@missing` lines, each is the value of another line too. Files in which
/// it is not, as DerivedBidiClass.txt, have long names there and short ones elsewhere.
pub fn test_own_names(file: &UnicodeFile<'_>, choice: &Choice<'_>) -> Result<(), Error> {
    if !matches!(choice.kind, ValueKind::Own) {
        return Ok(());
    }
    match only_missing(file.bytes, file.columns)? {
        Some(value) => Err(said(only_missing_line(file.name, value))),
        None => Ok(()),
    }
}

/// Tests whether an `@missing` line has a number if all other values are numbers: a name has none
/// without the file of aliases.
pub fn test_numbers(file: &UnicodeFile<'_>, choice: &Choice<'_>) -> Result<(), Error> {
    if !matches!(choice.kind, ValueKind::Own) {
        return Ok(());
    }
    match only_name(file.bytes, file.columns)? {
        Some(value) => Err(said(only_missing_line(file.name, value))),
        None => Ok(()),
    }
}

/// Returns the number of the value that code points have without a line and without an `@missing`
/// line. 0 would be the number of one of the values, and only the file of aliases says which value
/// it is. Returns `other` for files whose values are numbers, and if each code point has a line.
/// `how` says how to give another number.
pub fn default_of(
    matches: &ArgMatches<'_>,
    file: &UnicodeFile<'_>,
    numbering: Numbering<'_>,
    other: u32,
    how: &str,
) -> Result<u32, Error> {
    let aliases = &file.aliases;
    let property = matches.get_str("property").unwrap_or("").as_bytes();
    match missing_value(
        file.bytes,
        file.columns,
        numbering,
        &aliases.values,
        name_in_values(aliases, property),
    ) {
        Ok(MissingValue::Numbers | MissingValue::InLines) => Ok(other),
        Ok(MissingValue::Number(number)) => Ok(number),
        Ok(MissingValue::Unsaid) => Err(about(file.name, how)),
        Err(fault) => Err(file_fault(file.name, file.bytes, numbering, fault)),
    }
}

/// Returns whether a line is a comment that says the value of code points in nearly the form of an
/// `@missing` line, which starts with `# @missing: `.
fn is_nearly_missing(line: &[u8]) -> bool {
    if missing_of(line).is_some() || !trimmed(line).starts_with(b"#".as_slice()) {
        return false;
    }
    match trimmed(after(b'#', line)).strip_prefix(b"@missing:".as_slice()) {
        Some(content) => code_points_of(field(0, content_of(content))).is_some(),
        None => false,
    }
}

/// Returns the number of the first line of a file that is nearly an `@missing` line, counted from
/// 1.
fn nearly_missing(file: &[u8]) -> Option<u64> {
    let mut number = 0u64;
    for line in lines(file) {
        number = number.saturating_add(1);
        if is_nearly_missing(line) {
            return Some(number);
        }
    }
    None
}

/// Returns whether a line that is no `@missing` line has this value.
fn has_value(file: &UnicodeFile<'_>, value: &[u8]) -> bool {
    for line in lines(file.bytes) {
        if missing_of(line).is_none() && text_of_line(file.columns, line) == Some(value) {
            return true;
        }
    }
    false
}

/// Returns the value of a line, if it is an `@missing` line of the property.
fn value_in_missing<'f>(columns: Columns<'_>, line: &'f [u8]) -> Option<&'f [u8]> {
    missing_of(line)?;
    text_of_line(columns, line)
}

/// Returns the value of the first `@missing` line of the property.
fn first_missing<'f>(file: &UnicodeFile<'f>) -> Option<&'f [u8]> {
    for line in lines(file.bytes) {
        let value = value_in_missing(file.columns, line);
        if value.is_some() {
            return value;
        }
    }
    None
}

/// Returns the name in the `@missing` line of a file `Derived*.txt` if no other line has it, unless
/// the file is rejected because of it. These files have long names in `@missing` lines and short
/// ones elsewhere.
fn unused_missing<'f>(file: &UnicodeFile<'f>) -> Result<Option<&'f [u8]>, AllocError> {
    if !title_of(file.bytes).is_some_and(|title| title.starts_with(b"Derived".as_slice())) {
        return Ok(None);
    }
    let is_rejected = only_missing(file.bytes, file.columns)?.is_some()
        || only_name(file.bytes, file.columns)?.is_some();
    if is_rejected {
        return Ok(None);
    }
    match first_missing(file) {
        Some(value) if !are_digits(value) && !has_value(file, value) => Ok(Some(value)),
        _ => Ok(None),
    }
}

/// Returns the line about a value of an `@missing` line that may be another name of a value.
fn unused_line(name: &str, value: &[u8]) -> Result<String, AllocError> {
    let mut line = String::new();
    write!(line, "{name}: the value ")?;
    push_text(&mut line, value)?;
    line.try_push_str(" is only in an @missing line, and may be the long name of another one: ")?;
    line.try_push_str("--aliases PropertyValueAliases.txt has all names")?;
    Ok(line)
}

/// Says on standard error which line is nearly an `@missing` line, and which value of one may be a
/// second name, if the arguments name no file of aliases.
pub fn say_missing(
    rt: &HostRuntime,
    matches: &ArgMatches<'_>,
    file: &UnicodeFile<'_>,
) -> Result<(), AllocError> {
    if let Some(number) = nearly_missing(file.bytes) {
        let mut line = String::new();
        let name = file.name;
        write!(
            line,
            "{name}:{number}: a comment, since it does not start with `# @missing: `"
        )?;
        say(rt, &line);
    }
    let is_asked = matches.get_str("aliases").is_some() || matches.get_str("values").is_some();
    if is_asked {
        return Ok(());
    }
    if let Some(value) = unused_missing(file)? {
        say(rt, &unused_line(file.name, value)?);
    }
    Ok(())
}
