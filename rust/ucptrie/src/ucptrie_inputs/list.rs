//! The command `list`: the properties of files, and how many values each has.
use crate::clap::ArgMatches;
use crate::host::*;
use crate::support::AllocError;
use crate::support::prelude::*;
use crate::ucd_files::choice::{ValueKind, own_choice};
use crate::ucd_files::kind::{FileKind, has_values, kind_of};
use crate::ucd_files::statement::Columns;
use crate::ucptab_table::rows::{before, code_points_of};
use crate::ucptrie_inputs::compressed::expect_lines;
use crate::ucptrie_inputs::error::{Error, about};
use crate::ucptrie_inputs::overlap::conflict_of_texts;
use crate::ucptrie_inputs::properties::{is_field_of, properties_in, push_text};
use crate::ucptrie_inputs::streams::{bytes_at, input_name, put, read_twice, without_mark};
use crate::ucptrie_inputs::unicode_files::{UNICODE_DATA, is_simple_folding};

/// How many fields of a line are listed at most, more than a file of Unicode has.
const FIELDS: usize = 32;

/// A file whose properties are listed.
struct Listing<'f> {
    /// What it is read from.
    name: &'f str,
    /// Its bytes.
    bytes: &'f [u8],
}

/// Appends how many values a property or a field of a file has in its lines, or `binary` if it is
/// true or false, and the end of the line.
fn push_count(text: &mut String, file: &[u8], columns: Columns<'_>) -> Result<(), AllocError> {
    let choice = own_choice(file, columns)?;
    if matches!(choice.kind, ValueKind::Set | ValueKind::Binary) {
        return text.try_push_str(";binary\n");
    }
    let names = choice.names.as_slice();
    let count = names.iter().filter(|name| !name.text.is_empty()).count();
    writeln!(text, ";{count}")
}

/// Appends the line of a property of a file: `FILE;PROPERTY;COUNT`, or `FILE;PROPERTY;binary`.
fn push_property(
    text: &mut String,
    file: &Listing<'_>,
    property: &[u8],
    columns: Columns<'_>,
) -> Result<(), AllocError> {
    text.try_push_str(file.name)?;
    text.try_push(';')?;
    push_text(text, property)?;
    push_count(text, file.bytes, columns)
}

/// Appends the line of a field of a file: `FILE;field N;COUNT`.
fn push_field(text: &mut String, file: &Listing<'_>, n: usize) -> Result<(), AllocError> {
    let name = file.name;
    write!(text, "{name};field {n}")?;
    push_count(text, file.bytes, Columns::Field(n))
}

/// Appends the lines of the fields of a file that has one property, or several in fields.
fn push_fields(text: &mut String, file: &Listing<'_>) -> Result<(), AllocError> {
    for n in 1..FIELDS {
        if is_field_of(n, file.bytes) {
            push_field(text, file, n)?;
        }
    }
    Ok(())
}

/// Appends the lines of the properties in `UnicodeData.txt`, by their short names.
fn push_unicode_data(text: &mut String, file: &Listing<'_>) -> Result<(), AllocError> {
    for (short, _, field) in UNICODE_DATA.iter() {
        let columns = Columns::UnicodeData(*field);
        push_property(text, file, short.as_bytes(), columns)?;
    }
    Ok(())
}

/// Appends the lines of the properties that lines of a file name, in order of first appearance.
fn push_properties(
    text: &mut String,
    file: &Listing<'_>,
    is_unihan: bool,
) -> Result<(), AllocError> {
    let columns = if is_unihan {
        Columns::Unihan(&[])
    } else {
        Columns::Property(&[])
    };
    let properties = properties_in(columns, file.bytes)?;
    for property in properties.as_slice() {
        let columns = if is_unihan {
            Columns::Unihan(property.text)
        } else {
            Columns::Property(property.text)
        };
        push_property(text, file, property.text, columns)?;
    }
    Ok(())
}

/// Returns whether field 1 of the lines of a file has properties: a code point has two texts there,
/// and the first text is not a code point, as in `SpecialCasing.txt`.
fn has_properties(file: &[u8]) -> Result<bool, AllocError> {
    if conflict_of_texts(file)?.is_none() {
        return Ok(false);
    }
    let properties = properties_in(Columns::Property(&[]), file)?;
    match properties.as_slice() {
        [first, ..] => Ok(code_points_of(before(b' ', first.text)).is_none()),
        [] => Ok(false),
    }
}

/// Appends the lines of a file with code points in field 0.
fn push_lines(text: &mut String, file: &Listing<'_>) -> Result<(), AllocError> {
    if is_simple_folding(file.bytes, None) {
        return push_property(text, file, b"scf", Columns::SimpleFolding);
    }
    if has_properties(file.bytes)? {
        return push_properties(text, file, false);
    }
    push_fields(text, file)
}

/// Appends the lines of a file.
fn push_file(text: &mut String, file: &Listing<'_>) -> Result<(), Error> {
    expect_lines(file.name, file.bytes)?;
    if !has_values(file.bytes) {
        let why = "expected values, found only comments and blank lines";
        return Err(about(file.name, why));
    }
    match kind_of(file.bytes, false) {
        FileKind::UnicodeData => push_unicode_data(text, file)?,
        FileKind::Unihan => push_properties(text, file, true)?,
        FileKind::CodePoints => push_field(text, file, 0)?,
        _ => push_lines(text, file)?,
    }
    Ok(())
}

/// Appends the lines of the file with this name, or of standard input.
fn push_path(rt: &HostRuntime, text: &mut String, path: &str) -> Result<(), Error> {
    let bytes = bytes_at(rt, path)?;
    let file = Listing {
        name: input_name(path),
        bytes: without_mark(&bytes),
    };
    push_file(text, &file)
}

/// Tests that at most one file is standard input.
fn test_inputs(paths: &[&str]) -> Result<(), Error> {
    if paths.iter().filter(|path| **path == "-").count() > 1 {
        return Err(read_twice());
    }
    Ok(())
}

/// Prints the properties of the files that the arguments name.
pub fn list(rt: &HostRuntime, matches: &ArgMatches<'_>) -> Result<(), Error> {
    let paths = matches.get_strs("files").unwrap_or(&[]);
    test_inputs(paths)?;
    let mut text = String::new();
    for path in paths {
        push_path(rt, &mut text, path)?;
    }
    put(rt, text.as_bytes())
}
