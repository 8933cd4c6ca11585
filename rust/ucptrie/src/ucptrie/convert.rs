//! The command `convert`: a table in another form, or of another type, width or error value.
use crate::clap::ArgMatches;
use crate::host::*;
use crate::support::prelude::*;
use crate::ucptrie::build::unbuilt;
use crate::ucptrie::names::{expect_names, is_list, say_many};
use crate::ucptrie::tables::{file_in, form, table_of_property, trie_type, width};
use crate::ucptrie::unicode_tables::with_names;
use crate::ucptrie::wide::too_wide_in;
use crate::ucptrie_forms::written::written;
use crate::ucptrie_inputs::error::{Error, about};
use crate::ucptrie_inputs::number;
use crate::ucptrie_inputs::offsets::start_of;
use crate::ucptrie_readers::parsed::ParsedFile;
use crate::ucptrie_readers::properties::property_names;
use crate::ucptrie_readers::toml_names::NamesError;
use crate::ucptrie_tables::error::TableBuildError;
use crate::ucptrie_tables::form::Form;
use crate::ucptrie_tables::rebuild::rebuilt;
use crate::ucptrie_tables::table::Table;
use crate::ucptrie_tables::width::ValueWidth;

/// Returns the table as the arguments want it: as it is, or built again of its values. `name` is
/// what it was read from.
fn changed(matches: &ArgMatches<'_>, name: &str, table: Table) -> Result<Table, Error> {
    let (kind, bits) = (trie_type(matches), width(matches));
    let error = number(matches, "error");
    if kind.is_none() && bits.is_none() && error.is_none() {
        return Ok(table);
    }
    let (header, _, _) = table.trie.parts();
    let kind = kind.unwrap_or(header.trie_type);
    let bits = bits.unwrap_or(table.width);
    let error = error.unwrap_or(table.trie.error_value());
    match rebuilt(&table, kind, bits, error) {
        Ok(table) => Ok(table),
        Err(TableBuildError::Width(value, width)) => {
            Err(too_wide_in(matches, name, &table, value, width))
        }
        Err(fault) => Err(unbuilt(name, &[], fault)),
    }
}

/// Returns a table in a form. `name` is what it was read from.
///
/// Rows are ranges. The ranges of a table that is not coherent may differ from its values, so its
/// rows would make another table and are not written.
fn converted(name: &str, table: &Table, form: Form<'_>) -> Result<Vec<u8>, Error> {
    if matches!(form, Form::Rows) && !table.trie.is_coherent() {
        let why = "not coherent, so its ranges may differ from its look-ups: no rows are written";
        return Err(about(name, why));
    }
    match written(table, form) {
        Ok(bytes) => Ok(bytes),
        Err(fault) => Err(unbuilt(name, &[], fault)),
    }
}

/// Returns a table in a form, followed by the source of the names that its file has for its values
/// if the form is source, or only the list of these names. `name` is what the file was read from.
fn with_names_of_file(
    rt: &HostRuntime,
    matches: &ArgMatches<'_>,
    name: &str,
    file: &ParsedFile<'_>,
    bytes: Vec<u8>,
    width: ValueWidth,
) -> Result<Vec<u8>, Error> {
    let form = form(matches);
    if !matches!(form, Form::C(_) | Form::Bks(_) | Form::Rust(_)) && !is_list(matches) {
        return Ok(with_names(matches, bytes, form, width, &[])?);
    }
    let names = match property_names(file, matches.get_str("property")) {
        Ok(names) => names,
        Err(NamesError::Memory) => return Err(Error::Memory),
        Err(fault) => return Err(about(name, fault)),
    };
    say_many(rt, matches, name, names.as_slice())?;
    Ok(with_names(matches, bytes, form, width, names.as_slice())?)
}

/// Returns the table of a file in the form that the arguments name. `name` is what the file was
/// read from.
pub fn convert(
    rt: &HostRuntime,
    matches: &ArgMatches<'_>,
    name: &str,
    bytes: &[u8],
) -> Result<Vec<u8>, Error> {
    let file = file_in(name, bytes, start_of(matches))?;
    let table = table_of_property(matches, name, &file)?;
    let table = changed(matches, name, table)?;
    let bytes = if is_list(matches) {
        Vec::new()
    } else {
        converted(name, &table, form(matches))?
    };
    let whole = with_names_of_file(rt, matches, name, &file, bytes, table.width)?;
    expect_names(matches, name, &whole)?;
    Ok(whole)
}
