//! The tables of files, and how a table is to be written.
use crate::clap::ArgMatches;
use crate::host::*;
use crate::support::AllocError;
use crate::support::prelude::*;
use crate::ucptrie::names::name_in;
use crate::ucptrie_inputs::compressed::expect_text;
use crate::ucptrie_inputs::error::{Error, about, said};
use crate::ucptrie_inputs::file_forms::is_toml;
use crate::ucptrie_inputs::offsets::{Start, from_trie, starts_trie};
use crate::ucptrie_inputs::streams::{bytes_at, input_name, without_mark};
use crate::ucptrie_readers::error::{ReadError, TomlFileError};
use crate::ucptrie_readers::other_toml::{OtherToml, other_toml};
use crate::ucptrie_readers::parsed::ParsedFile;
use crate::ucptrie_readers::properties::{PropertyError, read_property};
use crate::ucptrie_sets::error::SetFileError;
use crate::ucptrie_sets::toml_file::set_of_file;
use crate::ucptrie_tables::form::Form;
use crate::ucptrie_tables::table::Table;
use crate::ucptrie_tables::width::ValueWidth;
use bekstaudi::codepointtrie::TrieType;

/// Returns the trie type that the arguments name.
pub fn trie_type(matches: &ArgMatches<'_>) -> Option<TrieType> {
    match matches.get_str("type") {
        Some("fast") => Some(TrieType::Fast),
        Some("small") => Some(TrieType::Small),
        _ => None,
    }
}

/// Returns the width that the arguments name.
pub fn width(matches: &ArgMatches<'_>) -> Option<ValueWidth> {
    match matches.get_str("width") {
        Some("8") => Some(ValueWidth::Bits8),
        Some("16") => Some(ValueWidth::Bits16),
        Some("32") => Some(ValueWidth::Bits32),
        _ => None,
    }
}

/// Returns the form that the arguments name.
pub fn form<'a>(matches: &ArgMatches<'a>) -> Form<'a> {
    let name = name_in(matches);
    match matches.get_str("as") {
        Some("icu") => Form::Icu,
        Some("toml") => Form::Toml,
        Some("json") => Form::Json,
        Some("c") => Form::C(name),
        Some("bks") => Form::Bks(name),
        Some("rust" | "rust-static") => Form::Rust(name),
        _ => Form::Rows,
    }
}

/// Returns the line about a text in no known form.
fn toml_line(name: &str, fault: &TomlFileError) -> Result<String, AllocError> {
    let (number, why) = (fault.line(), fault.message());
    let mut line = String::new();
    write!(
        line,
        "{name}:{number}: not TOML, JSON or ICU's binary form: {why}"
    )?;
    Ok(line)
}

/// Returns the fault of a file that has no table. `name` is what it was read from.
fn unread(name: &str, fault: ReadError) -> Error {
    match fault {
        ReadError::Memory => Error::Memory,
        ReadError::Toml(fault) => said(toml_line(name, &fault)),
        _ => about(name, fault),
    }
}

/// Returns the line about a property with no trie in a file.
fn missing_line(name: &str, property: &str, found: &str) -> Result<String, AllocError> {
    let mut line = String::new();
    write!(
        line,
        "{name}: expected the property {property} with a trie, found "
    )?;
    line.try_push_str(if found.is_empty() { "none" } else { found })?;
    Ok(line)
}

/// Returns the line about properties of which one has to be chosen.
fn several_line(name: &str, found: &str) -> Result<String, AllocError> {
    let mut line = String::new();
    write!(
        line,
        "{name}: several properties have a trie, choose one by --property: {found}"
    )?;
    Ok(line)
}

/// Returns the fault of a file that has no table of the property. `name` is what it was read from.
fn unchosen(name: &str, property: &str, fault: PropertyError) -> Error {
    match fault {
        PropertyError::Read(fault) => unread(name, fault),
        PropertyError::NotToml => about(name, "not TOML, so it has no properties"),
        PropertyError::Missing(found) => said(missing_line(name, property, &found)),
        PropertyError::Several(found) => said(several_line(name, &found)),
    }
}

/// Returns whether TOML is at fault in which a trie is missing.
fn lacks_trie(fault: &PropertyError) -> bool {
    matches!(
        fault,
        PropertyError::Read(ReadError::TrieToml(_)) | PropertyError::Missing(_)
    )
}

/// Returns whether a file has sets of code points in TOML.
fn has_sets(file: &[u8]) -> Result<bool, Error> {
    let Ok(text) = str::from_utf8(file) else {
        return Ok(false);
    };
    match set_of_file(text, None) {
        Err(SetFileError::Memory) => Err(Error::Memory),
        Err(SetFileError::NotToml | SetFileError::NoSets) => Ok(false),
        _ => Ok(true),
    }
}

/// Returns what a TOML file has that has no trie, if it is known.
fn other_in(file: &ParsedFile<'_>) -> Option<OtherToml> {
    other_toml(file.toml()?)
}

/// Returns the fault of a TOML file in which the trie is missing, or of the property that is asked
/// for. `name` is what the file was read from.
fn without_trie(
    name: &str,
    file: &ParsedFile<'_>,
    property: &str,
    fault: PropertyError,
) -> Result<Error, Error> {
    if has_sets(file.bytes())? {
        let why = "a set of code points, and no table: use ucptrie set";
        return Ok(about(name, why));
    }
    match other_in(file) {
        Some(other) => Ok(about(name, other)),
        None => Ok(unchosen(name, property, fault)),
    }
}

/// What is said of a text that is no table, as rows and the files that Unicode publishes.
const NO_TABLE: &str =
    "expected a table in ICU's binary form, JSON or TOML; ucptrie build makes one of lines";

/// Returns a file with its TOML. `name` is what it was read from.
fn parsed<'f>(name: &str, bytes: &'f [u8]) -> Result<ParsedFile<'f>, Error> {
    match ParsedFile::new(bytes) {
        Ok(file) => Ok(file),
        Err(ReadError::Toml(_)) if !is_toml(bytes) => Err(about(name, NO_TABLE)),
        Err(fault) => Err(unread(name, fault)),
    }
}

/// Returns the table of a file: in TOML that of the property that the arguments name, and in
/// another file that of the trie at its start. `name` is what the file was read from.
pub fn table_of_property(
    matches: &ArgMatches<'_>,
    name: &str,
    file: &ParsedFile<'_>,
) -> Result<Table, Error> {
    let property = matches.get_str("property");
    match read_property(file, property) {
        Ok(table) => Ok(table),
        Err(fault) => {
            let property = property.unwrap_or("");
            if lacks_trie(&fault) {
                return Err(without_trie(name, file, property, fault)?);
            }
            Err(unchosen(name, property, fault))
        }
    }
}

/// Returns the file with these bytes, from the start of its trie on, with its TOML. `name` is what
/// the bytes were read from.
pub fn file_in<'f>(name: &str, bytes: &'f [u8], start: Start) -> Result<ParsedFile<'f>, Error> {
    if bytes.is_empty() {
        return Err(about(name, "the file is empty"));
    }
    let part = from_trie(name, bytes, start)?;
    if !matches!(start, Start::At(_)) && !starts_trie(part) {
        expect_text(name, part)?;
    }
    parsed(name, part)
}

/// Returns the table of a file with these bytes, as [`table_of_property`] does.
pub fn table_in(
    matches: &ArgMatches<'_>,
    name: &str,
    bytes: &[u8],
    start: Start,
) -> Result<Table, Error> {
    let file = file_in(name, bytes, start)?;
    table_of_property(matches, name, &file)
}

/// Reads the table of the file that the argument `id` names, or of standard input if its name is
/// `-`. `start` is where the trie starts.
pub fn table_at(
    rt: &HostRuntime,
    matches: &ArgMatches<'_>,
    id: &str,
    start: Start,
) -> Result<Table, Error> {
    let path = matches.get_str(id).unwrap_or("-");
    let bytes = bytes_at(rt, path)?;
    let file = match start {
        Start::At(_) => bytes.as_slice(),
        Start::Found | Start::Only => without_mark(&bytes),
    };
    table_in(matches, input_name(path), file, start)
}
