//! Tables of files of the Unicode Character Database.
use crate::clap::ArgMatches;
use crate::host::*;
use crate::support::AllocError;
use crate::support::prelude::*;
use crate::ucd_files::choice::Choice;
use crate::ucd_files::fields::has_field;
use crate::ucd_files::kind::{FileKind, has_property, has_values};
use crate::ucd_files::names::{Numbering, is_same_name};
use crate::ucd_files::statement::Columns;
use crate::ucd_files::title::title_of;
use crate::ucptab_table::input::{line_at, lines};
use crate::ucptab_table::message::line_message;
use crate::ucptab_table::rows::content_of;
use crate::ucptrie_inputs::aliases::{Aliases, name_in_lines, name_in_values, named_aliases};
use crate::ucptrie_inputs::error::{Error, about, about_arguments, said};
use crate::ucptrie_inputs::missing::say_missing;
use crate::ucptrie_inputs::number;
use crate::ucptrie_inputs::numbering::{UnicodeFile, choice_of, numbering};
use crate::ucptrie_inputs::overlap::{Conflict, conflict_of_texts, find_conflict, has_values_of};
use crate::ucptrie_inputs::properties::{expect_field, has_unihan_property, missing_property};
use crate::ucptrie_inputs::streams::say;

/// Returns the kind of lines that the arguments name.
pub fn named_kind(matches: &ArgMatches<'_>) -> Option<FileKind> {
    match matches.get_str("format") {
        Some("rows") => Some(FileKind::Rows),
        Some("properties") => Some(FileKind::Properties),
        Some("unicode-data") => Some(FileKind::UnicodeData),
        Some("code-points") => Some(FileKind::CodePoints),
        Some("unihan") => Some(FileKind::Unihan),
        _ => None,
    }
}

/// Returns an option of the arguments that says where values are or what they are called, as only
/// for files of the Unicode Character Database.
pub fn column_option(matches: &ArgMatches<'_>) -> Option<&'static str> {
    if number(matches, "field").is_some() {
        Some("--field")
    } else if matches.get_str("property").is_some() {
        Some("--property")
    } else if matches.get_str("aliases").is_some() {
        Some("--aliases")
    } else {
        None
    }
}

/// Returns the fault of an option that only files of the Unicode Character Database need, and that
/// is given for rows.
pub fn not_of_rows(option: &str) -> Error {
    about_arguments(
        option,
        "not for rows: leave it out, or name another kind of file by --format",
    )
}

/// The properties of `UnicodeData.txt` with one value for each code point: the short and the long
/// name, and the field.
pub static UNICODE_DATA: [(&str, &str, usize); 11] = [
    ("na", "Name", 1),
    ("gc", "General_Category", 2),
    ("ccc", "Canonical_Combining_Class", 3),
    ("bc", "Bidi_Class", 4),
    ("nv", "Numeric_Value", 8),
    ("Bidi_M", "Bidi_Mirrored", 9),
    ("na1", "Unicode_1_Name", 10),
    ("isc", "ISO_Comment", 11),
    ("suc", "Simple_Uppercase_Mapping", 12),
    ("slc", "Simple_Lowercase_Mapping", 13),
    ("stc", "Simple_Titlecase_Mapping", 14),
];

/// Returns whether a property has this short or this long name.
pub fn is_named(short: &str, long: &str, property: &[u8]) -> bool {
    is_same_name(short.as_bytes(), property) || is_same_name(long.as_bytes(), property)
}

/// Returns whether two texts are names of one property: the same name, or the short and the long
/// name of a property of `UnicodeData.txt`.
pub fn are_names_of_one(property: &[u8], name: &[u8]) -> bool {
    for (short, long, _) in UNICODE_DATA.iter() {
        if is_named(short, long, property) && is_named(short, long, name) {
            return true;
        }
    }
    is_same_name(property, name)
}

/// Returns the field of a property in `UnicodeData.txt`. `name` is what the file was read from.
fn unicode_data_field(name: &str, property: Option<&str>) -> Result<usize, Error> {
    let Some(property) = property else {
        let why = "the file has many properties: name one by --property or --field, for join as FILE:NAME";
        return Err(about(name, why));
    };
    for (short, long, field) in UNICODE_DATA.iter() {
        if is_named(short, long, property.as_bytes()) {
            return Ok(*field);
        }
    }
    let why = "UnicodeData.txt has no such property; --field names a field by its number";
    Err(about(property, why))
}

/// Returns whether a file is `CaseFolding.txt`, and no property but the simple case folding is
/// named.
pub fn is_simple_folding(file: &[u8], property: Option<&str>) -> bool {
    match title_of(file) {
        Some(title) if title.starts_with(b"CaseFolding".as_slice()) => match property {
            Some(property) => is_named("scf", "Simple_Case_Folding", property.as_bytes()),
            None => true,
        },
        _ => false,
    }
}

/// Returns the line about a code point that has two different values. `how` says what to do.
fn two_values(name: &str, conflict: Conflict, how: &str) -> Result<String, AllocError> {
    let mut line = String::new();
    let (number, code_point) = (conflict.second, conflict.code_point);
    write!(
        line,
        "{name}:{number}: {code_point:04X} has another value in line "
    )?;
    let first = conflict.first;
    write!(line, "{first}{how}")?;
    Ok(line)
}

/// Returns the number of the first line of `Blocks.txt` in the style of Unicode 3.0, whose fields
/// are the first code point, the last code point and the name. Returns `None` for other files.
fn old_block(file: &[u8]) -> Option<u64> {
    if !title_of(file).is_some_and(|title| title.starts_with(b"Blocks".as_slice())) {
        return None;
    }
    let mut number = 0u64;
    for line in lines(file) {
        number = number.saturating_add(1);
        if has_field(2, content_of(line)) {
            return Some(number);
        }
    }
    None
}

/// Returns field 1, unless a code point has two values there. `name` is what the lines were read
/// from.
fn only_field(name: &str, file: &[u8]) -> Result<Columns<'static>, Error> {
    if let Some(number) = old_block(file) {
        let line = line_at(file, number).unwrap_or(&[]);
        let form = "HEX..HEX before the first `;`";
        return Err(said(line_message(name, number, form, line)));
    }
    match conflict_of_texts(file)? {
        Some(conflict) => {
            let how = ": if the file has several properties, name one by --property, for join as FILE:NAME";
            Err(said(two_values(name, conflict, how)))
        }
        None => Ok(Columns::Field(1)),
    }
}

/// Tests that no code point has two different values in the lines of a file.
pub fn test_conflicts(file: &UnicodeFile<'_>, numbering: Numbering<'_>) -> Result<(), Error> {
    match find_conflict(file.bytes, file.columns, numbering)? {
        Some(conflict) => Err(said(two_values(file.name, conflict, ""))),
        None => Ok(()),
    }
}

/// Returns the file that has a field of `UnicodeData.txt` for all code points, if that file itself
/// leaves some out: the names and numeric values of ranges, and the bidirectional class of
/// unassigned code points.
fn whole_file(columns: Columns<'_>) -> Option<&'static str> {
    match columns {
        Columns::UnicodeData(1) => Some("extracted/DerivedName.txt"),
        Columns::UnicodeData(4) => Some("extracted/DerivedBidiClass.txt"),
        Columns::UnicodeData(8) => Some("extracted/DerivedNumericValues.txt"),
        _ => None,
    }
}

/// Returns why a file does not say the value of code points without a line: `other`, unless another
/// file has it.
pub fn why_no_default(columns: Columns<'_>, other: &'static str) -> &'static str {
    match columns {
        Columns::UnicodeData(4) => {
            "no line says which value the other code points have: extracted/DerivedBidiClass.txt does"
        }
        _ => other,
    }
}

/// Says on standard error which file has a property of all code points, if the file that is read
/// does not.
fn say_whole_file(rt: &HostRuntime, file: &UnicodeFile<'_>) -> Result<(), AllocError> {
    let Some(whole) = whole_file(file.columns) else {
        return Ok(());
    };
    let mut line = String::new();
    let name = file.name;
    write!(
        line,
        "{name}: the values of some code points are only in {whole}"
    )?;
    say(rt, &line);
    Ok(())
}

/// Returns where lines have the values of a property that no line names. It is the property of all
/// lines if a file of aliases has its values.
fn columns_of_all(
    property: &str,
    aliases: &Aliases,
    name: &str,
    file: &[u8],
) -> Result<Columns<'static>, Error> {
    let columns = Columns::Field(1);
    if let Some(conflict) = conflict_of_texts(file)? {
        let own_name = name_in_values(aliases, property.as_bytes());
        if !has_values_of(&aliases.values, own_name, file, conflict)? {
            return Err(missing_property(columns, property, name, file));
        }
    }
    if !aliases.values.is_empty() {
        return Ok(columns);
    }
    let why =
        "no line has this property: leave it out, or name the file of its values by --aliases";
    Err(about(property, why))
}

/// Returns where lines with code points in field 0 have their values. `name` is what they were read
/// from.
fn columns_of_lines<'a>(
    property: Option<&'a str>,
    aliases: &Aliases,
    name: &str,
    file: &'a [u8],
) -> Result<Columns<'a>, Error> {
    match property {
        Some(property) if has_property(file, property.as_bytes()) => {
            Ok(Columns::Property(property.as_bytes()))
        }
        property if is_simple_folding(file, property) => Ok(Columns::SimpleFolding),
        Some(property) => match name_in_lines(aliases, file, property.as_bytes()) {
            Some(own_name) => Ok(Columns::Property(own_name)),
            None => columns_of_all(property, aliases, name, file),
        },
        None => only_field(name, file),
    }
}

/// Returns where lines of Unihan have the values of a property. `name` is what they were read from.
fn columns_of_unihan<'a>(property: &'a str, name: &str, file: &[u8]) -> Result<Columns<'a>, Error> {
    let columns = Columns::Unihan(property.as_bytes());
    if has_unihan_property(file, property.as_bytes()) {
        return Ok(columns);
    }
    Err(missing_property(columns, property, name, file))
}

/// Returns where the lines of a file have their values. `name` is what it was read from.
fn columns<'f, 'a: 'f>(
    matches: &ArgMatches<'a>,
    aliases: &Aliases,
    kind: FileKind,
    name: &str,
    file: &'f [u8],
) -> Result<Columns<'f>, Error> {
    if !has_values(file) {
        return Err(about(
            name,
            "expected values, found only comments and blank lines",
        ));
    }
    let property = matches.get_str("property");
    if let Some(field) = number(matches, "field") {
        return Ok(match kind {
            FileKind::UnicodeData => Columns::UnicodeData(field as usize),
            _ => Columns::Field(field as usize),
        });
    }
    match kind {
        FileKind::CodePoints => Ok(Columns::Field(0)),
        FileKind::UnicodeData => Ok(Columns::UnicodeData(unicode_data_field(name, property)?)),
        FileKind::Unihan => match property {
            Some(property) => columns_of_unihan(property, name, file),
            None => {
                let why =
                    "the file has many properties: name one by --property, for join as FILE:NAME";
                Err(about(name, why))
            }
        },
        _ => columns_of_lines(property, aliases, name, file),
    }
}

/// Returns a file of the Unicode Character Database, with the files of aliases that the arguments
/// name. `name` is what it was read from.
pub fn unicode_file<'f, 'a: 'f>(
    rt: &HostRuntime,
    matches: &ArgMatches<'a>,
    name: &'f str,
    bytes: &'f [u8],
    kind: FileKind,
) -> Result<UnicodeFile<'f>, Error> {
    let aliases = named_aliases(rt, matches)?;
    let columns = columns(matches, &aliases, kind, name, bytes)?;
    expect_field(matches, columns, name, bytes)?;
    Ok(UnicodeFile {
        name,
        bytes,
        columns,
        aliases,
    })
}

/// Returns what the values of a file of the Unicode Character Database are. Says on standard error
/// which other file has the whole property, and which `@missing` lines are not read.
pub fn choice_of_file<'f>(
    rt: &HostRuntime,
    matches: &ArgMatches<'_>,
    file: &'f UnicodeFile<'f>,
) -> Result<Choice<'f>, Error> {
    say_whole_file(rt, file)?;
    say_missing(rt, matches, file)?;
    choice_of(matches, file)
}
