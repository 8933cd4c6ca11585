//! What is said of values that can be read in two ways, or not as they are written: numbers that
//! are no whole ones, and words of hexadecimal digits.
use crate::clap::ArgMatches;
use crate::host::*;
use crate::support::AllocError;
use crate::support::prelude::*;
use crate::ucd_files::choice::{Choice, ValueKind, is_pair_file};
use crate::ucd_files::kind::{are_code_points, are_digits};
use crate::ucd_files::names::{Name, Numbering, short_decimal};
use crate::ucd_files::order::text_of_line;
use crate::ucd_files::statement::Columns;
use crate::ucptab_table::input::lines;
use crate::ucptrie_inputs::numbering::{UnicodeFile, numbering};
use crate::ucptrie_inputs::properties::push_text;
use crate::ucptrie_inputs::streams::say;

/// Returns whether a text is written as a number that a table can't have, as `1/2`, `0.5` or `-1`:
/// digits, `.` and `/` after a digit, and `-` before them or not, but no decimal number of at most
/// 32 bits.
fn is_fraction(text: &[u8]) -> bool {
    let digits = text.strip_prefix(b"-".as_slice()).unwrap_or(text);
    for byte in digits {
        if !(byte.is_ascii_digit() || *byte == b'.' || *byte == b'/') {
            return false;
        }
    }
    matches!(digits, [first, ..] if first.is_ascii_digit()) && short_decimal(text).is_none()
}

/// Returns the first of the names that is written as a number which a table can't have.
fn first_fraction<'f>(names: &[Name<'f>]) -> Option<&'f [u8]> {
    for name in names {
        if is_fraction(name.text) {
            return Some(name.text);
        }
    }
    None
}

/// Returns the line about values that are names, as this one is.
fn fraction_line(name: &str, text: &[u8]) -> Result<String, AllocError> {
    let mut line = String::new();
    write!(line, "{name}: the value ")?;
    push_text(&mut line, text)?;
    line.try_push_str(
        " is no whole number of 32 bits, so the values are names, and their numbers ",
    )?;
    line.try_push_str("are in order of first appearance")?;
    Ok(line)
}

/// Says on standard error that the values of a file are names, if one of them is written as a
/// number and the arguments do not ask for names.
pub fn say_fractions(
    rt: &HostRuntime,
    matches: &ArgMatches<'_>,
    file: &UnicodeFile<'_>,
    choice: &Choice<'_>,
) -> Result<(), AllocError> {
    let is_asked = matches.get_str("values").is_some() || !matches!(choice.kind, ValueKind::Own);
    if is_asked || !matches!(numbering(matches, file, choice), Numbering::Names(_, _)) {
        return Ok(());
    }
    if let Some(text) = first_fraction(choice.names.as_slice()) {
        say(rt, &fraction_line(file.name, text)?);
    }
    Ok(())
}

/// Returns whether a text has letters alone.
fn are_letters(text: &[u8]) -> bool {
    text.iter().all(|byte| byte.is_ascii_alphabetic())
}

/// Returns the first value of a file if its values can be read in two ways: all are code points of
/// 4 to 6 hexadecimal digits, and all have decimal digits alone, or all have letters alone.
fn ambiguous<'f>(file: &UnicodeFile<'f>) -> Option<&'f [u8]> {
    if !are_code_points(file.bytes, file.columns) || is_pair_file(file.bytes, file.columns) {
        return None;
    }
    let mut found: Option<&'f [u8]> = None;
    for line in lines(file.bytes) {
        if let Some(text) = text_of_line(file.columns, line) {
            let first = found.unwrap_or(text);
            let is_alike = if are_digits(first) {
                are_digits(text)
            } else {
                are_letters(text)
            };
            if !is_alike {
                return None;
            }
            found = Some(first);
        }
    }
    found
}

/// Returns the line about values that are read in one of two ways.
fn reading_line(name: &str, text: &[u8], is_hexadecimal: bool) -> Result<String, AllocError> {
    let mut line = String::new();
    write!(line, "{name}: the values, as ")?;
    push_text(&mut line, text)?;
    line.try_push_str(match (is_hexadecimal, are_digits(text)) {
        (true, true) => ", are read as code points: --values decimal reads decimal numbers",
        (true, false) => ", are read as code points: --values names reads names",
        (false, _) => ", are read as decimal numbers: --values hexadecimal reads code points",
    })?;
    Ok(line)
}

/// Says on standard error how the values of a file are read, if they can be decimal numbers or
/// names as well as code points, and the arguments do not say it. Simple case mappings are code
/// points.
pub fn say_reading(
    rt: &HostRuntime,
    matches: &ArgMatches<'_>,
    file: &UnicodeFile<'_>,
    choice: &Choice<'_>,
) -> Result<(), AllocError> {
    let is_mapping = matches!(
        file.columns,
        Columns::SimpleFolding | Columns::UnicodeData(12..=14)
    );
    let is_asked = matches.get_str("values").is_some() || !matches!(choice.kind, ValueKind::Own);
    if is_asked || is_mapping {
        return Ok(());
    }
    if let Some(text) = ambiguous(file) {
        let is_hexadecimal = matches!(numbering(matches, file, choice), Numbering::Hexadecimal);
        say(rt, &reading_line(file.name, text, is_hexadecimal)?);
    }
    Ok(())
}
