//! Tables of files of the Unicode Character Database.
use crate::clap::ArgMatches;
use crate::host::*;
use crate::support::AllocError;
use crate::support::prelude::*;
use crate::ucd_files::choice::{Choice, ValueKind};
use crate::ucd_files::kind::{FileKind, has_missing_lines};
use crate::ucd_files::names::{Name, Numbering};
use crate::ucptrie::build::{options, unbuilt};
use crate::ucptrie::names::{is_list, say_many_in};
use crate::ucptrie::static_trie::{is_static, with_static};
use crate::ucptrie::tables::form;
use crate::ucptrie::wide::{line_with, too_wide};
use crate::ucptrie_forms::written::written;
use crate::ucptrie_inputs::aliases::Aliases;
use crate::ucptrie_inputs::error::Error;
use crate::ucptrie_inputs::fractions::{say_fractions, say_reading};
use crate::ucptrie_inputs::line_errors::file_fault;
use crate::ucptrie_inputs::missing::{default_of, test_numbers, test_own_names};
use crate::ucptrie_inputs::number;
use crate::ucptrie_inputs::numbering::{UnicodeFile, numbering};
use crate::ucptrie_inputs::unicode_files::{
    choice_of_file, test_conflicts, unicode_file, why_no_default,
};
use crate::ucptrie_names::names_list::names_list;
use crate::ucptrie_names::value_names::names_source;
use crate::ucptrie_readers::error::UnicodeFileError;
use crate::ucptrie_readers::unicode_file::table_of_file;
use crate::ucptrie_tables::error::TableBuildError;
use crate::ucptrie_tables::form::Form;
use crate::ucptrie_tables::table::TableOptions;
use crate::ucptrie_tables::width::ValueWidth;

/// Returns the fault of a file that makes no table. `name` is what it was read from.
/// `numbering` is how its values become numbers.
pub fn unread(name: &str, file: &[u8], numbering: Numbering<'_>, fault: UnicodeFileError) -> Error {
    match fault {
        UnicodeFileError::File(fault) => file_fault(name, file, numbering, fault),
        UnicodeFileError::Build(fault) => unbuilt(name, file, fault),
    }
}

/// Appends the names of values as source, if the form is one.
fn push_names(
    bytes: &mut Vec<u8>,
    form: Form<'_>,
    width: ValueWidth,
    names: &[Name<'_>],
) -> Result<(), AllocError> {
    let source = names_source(form, width.bits(), names)?;
    bytes.try_extend_from_slice(source.as_bytes())?;
    Ok(())
}

/// Returns a table in a form, followed by the source of these names and by the static trie that the
/// arguments ask for, or only the list of the names if they ask for that.
pub fn with_names(
    matches: &ArgMatches<'_>,
    bytes: Vec<u8>,
    form: Form<'_>,
    width: ValueWidth,
    names: &[Name<'_>],
) -> Result<Vec<u8>, AllocError> {
    if is_list(matches) {
        return names_list(names);
    }
    let mut bytes = bytes;
    if !is_static(matches) {
        push_names(&mut bytes, form, width, names)?;
    }
    with_static(matches, bytes, width, names)
}

/// Returns the table of a file in the form that the arguments name.
fn written_of_file(
    matches: &ArgMatches<'_>,
    file: &UnicodeFile<'_>,
    choice: &Choice<'_>,
    numbering: Numbering<'_>,
    options: TableOptions,
) -> Result<Vec<u8>, UnicodeFileError> {
    let form = form(matches);
    let table = table_of_file(file.bytes, file.columns, numbering, options)?;
    let bytes = written(&table, form)?;
    let is_binary = matches!(choice.kind, ValueKind::Binary);
    if matches!(numbering, Numbering::Names(_, _)) && !is_binary {
        let names = choice.names.as_slice();
        return Ok(with_names(matches, bytes, form, table.width, names)?);
    }
    Ok(with_names(matches, bytes, form, table.width, &[])?)
}

/// Returns what the table of a file is to be. `how` is what is said if no line says which value
/// the other code points have.
fn options_of_file(
    matches: &ArgMatches<'_>,
    file: &UnicodeFile<'_>,
    choice: &Choice<'_>,
    numbering: Numbering<'_>,
    how: &'static str,
) -> Result<TableOptions, Error> {
    let given = options(matches);
    let needs_default = match choice.kind {
        ValueKind::Aliases => true,
        ValueKind::Own => has_missing_lines(file.bytes, file.columns),
        ValueKind::Set | ValueKind::Binary => false,
    };
    if needs_default && number(matches, "default").is_none() {
        let how = why_no_default(file.columns, how);
        let default = default_of(matches, file, numbering, given.default, how)?;
        return Ok(TableOptions { default, ..given });
    }
    Ok(given)
}

/// Tests what the lines of a file say, whose values have these names. Returns how the values become
/// numbers, and what the table is to be. `how` is what is said if no line says which value the
/// other code points have.
pub fn tested<'n>(
    matches: &ArgMatches<'_>,
    file: &UnicodeFile<'_>,
    choice: &'n Choice<'n>,
    how: &'static str,
) -> Result<(Numbering<'n>, TableOptions), Error> {
    let numbering = numbering(matches, file, choice);
    test_conflicts(file, numbering)?;
    if matches!(numbering, Numbering::Names(_, _)) {
        test_own_names(file, choice)?;
    }
    if matches.get_str("values").is_none() {
        test_numbers(file, choice)?;
    }
    let options = options_of_file(matches, file, choice, numbering, how)?;
    Ok((numbering, options))
}

/// What is said of a file that says too little of code points without a line.
const NO_DEFAULT: &str =
    "no line says which value the other code points have: give --default NUMBER";

/// Returns the table of a file, whose values have these names, in the form that the arguments name.
fn built_of_file(
    matches: &ArgMatches<'_>,
    file: &UnicodeFile<'_>,
    choice: &Choice<'_>,
) -> Result<Vec<u8>, Error> {
    let (numbering, options) = tested(matches, file, choice, NO_DEFAULT)?;
    match written_of_file(matches, file, choice, numbering, options) {
        Ok(bytes) => Ok(bytes),
        Err(UnicodeFileError::Build(TableBuildError::Width(value, width))) => {
            let place = line_with(file, numbering, value);
            Err(too_wide(matches, file.name, place, value, width))
        }
        Err(fault) => Err(unread(file.name, file.bytes, numbering, fault)),
    }
}

/// Builds a table of a file of the Unicode Character Database, in the form that the arguments name.
/// `name` is what it was read from.
pub fn build_file(
    rt: &HostRuntime,
    matches: &ArgMatches<'_>,
    name: &str,
    bytes: &[u8],
    kind: FileKind,
) -> Result<Vec<u8>, Error> {
    let file = unicode_file(rt, matches, name, bytes, kind)?;
    let choice = choice_of_file(rt, matches, &file)?;
    say_fractions(rt, matches, &file, &choice)?;
    say_many_in(rt, matches, &file, &choice)?;
    say_reading(rt, matches, &file, &choice)?;
    built_of_file(matches, &file, &choice)
}
