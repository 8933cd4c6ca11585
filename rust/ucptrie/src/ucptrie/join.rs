//! The command `join`: several properties in one table, whose values are the combinations that occur.
use crate::clap::ArgMatches;
use crate::host::*;
use crate::support::AllocError;
use crate::support::prelude::*;
use crate::ucd_files::names::Name;
use crate::ucptrie::build::unbuilt;
use crate::ucptrie::columns::{ColumnValues, Columns, Input, ValueName, columns_of};
use crate::ucptrie::combinations::{combination_list, combination_names};
use crate::ucptrie::functions::test_functions;
use crate::ucptrie::heading::with_headings;
use crate::ucptrie::names::{is_list, test_name};
use crate::ucptrie::output::{deliver, target_of};
use crate::ucptrie::static_trie::is_static;
use crate::ucptrie::tables::{form, trie_type, width};
use crate::ucptrie::unicode_tables::with_names;
use crate::ucptrie::wide::too_wide;
use crate::ucptrie_forms::written::written;
use crate::ucptrie_inputs::error::{Error, about, said};
use crate::ucptrie_inputs::number;
use crate::ucptrie_inputs::progress::{report, started};
use crate::ucptrie_inputs::streams::{bytes_at, input_name, read_twice, without_mark};
use crate::ucptrie_names::join_source::{JoinedProperty, PropertyValues, properties_source};
use crate::ucptrie_names::value_names::MOST;
use crate::ucptrie_tables::error::TableBuildError;
use crate::ucptrie_tables::form::Form;
use crate::ucptrie_tables::join::{Join, joined};
use crate::ucptrie_tables::table::{Table, TableOptions, table_of_writes};
use crate::ucptrie_tables::width::ValueWidth;
use bekstaudi::codepointtrie::TrieType;
use bekstaudi::codepointtrie::Write;

/// Returns the file in a word `FILE`, or `FILE:PROPERTY,..`, and its properties.
fn file_of(word: &str) -> (&str, Option<&str>) {
    match word.rsplit_once(':') {
        Some((path, properties)) if !properties.contains(['/', '\\']) => (path, Some(properties)),
        _ => (word, None),
    }
}

/// Tests that at most one of the files that the arguments name is standard input.
fn test_inputs(matches: &ArgMatches<'_>, words: &[&str]) -> Result<(), Error> {
    let mut count = 0usize;
    for word in words {
        let (path, _) = file_of(word);
        count = count.saturating_add(usize::from(path == "-"));
    }
    for path in matches.get_strs("aliases").unwrap_or(&[]) {
        count = count.saturating_add(usize::from(*path == "-"));
    }
    if count > 1 {
        return Err(read_twice());
    }
    Ok(())
}

/// Reads the file of a word.
fn input_of<'a>(rt: &HostRuntime, word: &'a str) -> Result<Input<'a>, Error> {
    let (path, properties) = file_of(word);
    let file = bytes_at(rt, path)?;
    if file.is_empty() {
        return Err(about(input_name(path), "the input is empty"));
    }
    let mut bytes = Vec::new();
    bytes.try_extend_from_slice(without_mark(&file))?;
    Ok(Input {
        path: input_name(path),
        properties,
        bytes,
    })
}

/// Reads the files of words.
fn inputs_of<'a>(rt: &HostRuntime, words: &[&'a str]) -> Result<Vec<Input<'a>>, Error> {
    let mut inputs = Vec::new();
    for word in words {
        inputs.try_push(input_of(rt, word)?)?;
    }
    Ok(inputs)
}

/// Returns how many bytes files have.
fn size_of(inputs: &[Input<'_>]) -> usize {
    let mut size = 0usize;
    for input in inputs {
        size = size.saturating_add(input.bytes.len());
    }
    size
}

/// Returns the names of values that are copies.
fn borrowed<'n>(copies: &'n [ValueName]) -> Result<Vec<Name<'n>>, AllocError> {
    let mut names = Vec::new();
    for copy in copies {
        names.try_push(Name {
            text: &copy.text,
            number: copy.number,
        })?;
    }
    Ok(names)
}

/// What an ill-formed part of a text counts as.
const REPLACEMENT_CHARACTER: u32 = 0xFFFD;

/// Returns the number of the combination that a code point has.
fn number_at(join: &Join, c: u32) -> u32 {
    for write in &join.writes {
        let (first, last, number) = match write {
            Write::One(only, number) => (*only, *only, *number),
            Write::Range(range, number) => (*range.start(), *range.end(), *number),
        };
        if first <= c && c <= last {
            return number;
        }
    }
    0
}

/// Returns what the table of a join is to be: its values have the asked width, or else the fewest
/// bits that all of them and the error value fit.
fn options(matches: &ArgMatches<'_>, join: &Join) -> TableOptions {
    let error = number(matches, "error").unwrap_or(number_at(join, REPLACEMENT_CHARACTER));
    let last = u32::try_from(join.firsts.len().saturating_sub(1)).unwrap_or(u32::MAX);
    TableOptions {
        trie_type: trie_type(matches).unwrap_or(TrieType::Fast),
        width: width(matches).unwrap_or(ValueWidth::of_value(last.max(error))),
        default: 0,
        error,
    }
}

/// Returns the value of each combination in a column.
fn numbers_in(table: &Table, join: &Join) -> Result<Vec<u32>, AllocError> {
    let mut numbers = Vec::new();
    for first in &join.firsts {
        numbers.try_push(table.trie.get32(*first))?;
    }
    Ok(numbers)
}

/// Returns the table of a join. `name` is what faults call it.
fn table_of(matches: &ArgMatches<'_>, name: &str, join: &Join) -> Result<Table, Error> {
    match table_of_writes(&join.writes, options(matches, join)) {
        Ok(table) => Ok(table),
        Err(TableBuildError::Width(value, width)) => {
            Err(too_wide(matches, name, None, value, width))
        }
        Err(fault) => Err(unbuilt(name, &[], fault)),
    }
}

/// Returns the line about more combinations than an enum has values.
fn many_line(count: usize) -> Result<String, AllocError> {
    let mut line = String::new();
    write!(
        line,
        "{count} combinations of values, and source has at most {MOST}"
    )?;
    Ok(line)
}

/// Returns the line about an error value that is no combination.
fn error_line(error: u32, count: usize) -> Result<String, AllocError> {
    let mut line = String::new();
    write!(
        line,
        "--error: the value {error} is none of the {count} combinations, as in source it has to be"
    )?;
    Ok(line)
}

/// Tests that source can have this many combinations, and that the error value is one of them.
fn test_source(matches: &ArgMatches<'_>, count: usize) -> Result<(), Error> {
    if count > MOST {
        return Err(said(many_line(count)));
    }
    match number(matches, "error") {
        Some(error) if count <= error as usize => Err(said(error_line(error, count))),
        _ => Ok(()),
    }
}

/// Returns the properties of a joined table. `names` are those of the values of each.
fn properties_of<'n>(
    columns: &'n Columns,
    join: &Join,
    names: &'n [Vec<Name<'n>>],
) -> Result<Vec<JoinedProperty<'n>>, AllocError> {
    let mut properties = Vec::new();
    for ((column, table), names) in columns.columns.iter().zip(&columns.tables).zip(names) {
        properties.try_push(JoinedProperty {
            name: column.function.as_str(),
            values: match &column.values {
                ColumnValues::Binary => PropertyValues::Binary,
                ColumnValues::Names(_) => PropertyValues::Names(names),
                ColumnValues::Numbers => PropertyValues::Numbers,
            },
            numbers: numbers_in(table, join)?,
        })?;
    }
    Ok(properties)
}

/// Returns the names of the values of each column.
fn names_of_columns(columns: &Columns) -> Result<Vec<Vec<Name<'_>>>, AllocError> {
    let mut all = Vec::new();
    for column in &columns.columns {
        all.try_push(match &column.values {
            ColumnValues::Names(copies) => borrowed(copies)?,
            _ => Vec::new(),
        })?;
    }
    Ok(all)
}

/// Appends the source of the combinations and of the properties to that of their table.
fn with_source(
    matches: &ArgMatches<'_>,
    columns: &Columns,
    join: &Join,
    bytes: Vec<u8>,
    bits: ValueWidth,
) -> Result<Vec<u8>, Error> {
    test_source(matches, join.firsts.len())?;
    test_functions(matches, &columns.columns)?;
    let form = form(matches);
    let texts = combination_names(columns, join)?;
    let names = borrowed(if matches!(form, Form::C(_) | Form::Bks(_)) {
        &[]
    } else {
        &texts
    })?;
    let mut whole = with_names(matches, bytes, form, bits, &names)?;
    let names = names_of_columns(columns)?;
    let properties = properties_of(columns, join, &names)?;
    let source = properties_source(form, is_static(matches), &properties)?;
    whole.try_extend_from_slice(source.as_bytes())?;
    Ok(whole)
}

/// Returns the joined table of columns in the form that the arguments name, or the list of its
/// values.
fn made(matches: &ArgMatches<'_>, columns: &Columns) -> Result<Vec<u8>, Error> {
    let join = joined(&columns.tables)?;
    if is_list(matches) {
        return Ok(combination_list(columns, &join)?);
    }
    let form = form(matches);
    let table = table_of(matches, NAME, &join)?;
    let bytes = match written(&table, form) {
        Ok(bytes) => bytes,
        Err(fault) => return Err(unbuilt(NAME, &[], fault)),
    };
    match form {
        Form::C(_) | Form::Bks(_) | Form::Rust(_) => {
            with_source(matches, columns, &join, bytes, table.width)
        }
        _ => Ok(bytes),
    }
}

/// What faults call the joined table.
const NAME: &str = "the joined table";

/// Sends the joined table of the properties that the arguments name to its target.
pub fn join(rt: &HostRuntime, matches: &ArgMatches<'_>) -> Result<(), Error> {
    let start = started(rt);
    let target = target_of(matches)?;
    test_name(matches)?;
    let words = matches.get_strs("files").unwrap_or(&[]);
    test_inputs(matches, words)?;
    let inputs = inputs_of(rt, words)?;
    report(rt, start, "read", size_of(&inputs));
    let columns = columns_of(rt, matches, &inputs)?;
    let bytes = made(matches, &columns)?;
    report(rt, start, "made", bytes.len());
    let whole = with_headings(matches, &inputs, bytes)?;
    deliver(rt, target, &whole, matches.get_str("as") == Some("icu"))
}
