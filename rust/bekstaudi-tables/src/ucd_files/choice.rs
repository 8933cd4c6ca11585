//! What the values of a file are, and how they become numbers.

use crate::host::*;
use crate::support::AllocError;
use crate::support::prelude::*;
use crate::ucd_files::aliases::alias_names;
use crate::ucd_files::kind::{are_code_points, are_decimal, has_missing_lines, have_leading_zero};
use crate::ucd_files::names::{Matching, Name, Numbering, is_same_name};
use crate::ucd_files::order::names_in_order;
use crate::ucd_files::statement::Columns;
use crate::ucd_files::title::title_of;
use crate::ucd_files::value_names::ValueNames;

/// What the values of a file are.
#[derive(Clone, Copy, Debug, PartialEq, Eq)]
pub enum ValueKind {
    /// The lines are a set, and have no other value.
    Set,
    /// True and false, which are 1 and 0.
    Binary,
    /// Values that the file of aliases names.
    Aliases,
    /// Values that only the file itself names.
    Own,
}

/// The names of values, with their numbers, and what the values are.
#[derive(Debug)]
pub struct Choice<'f> {
    pub names: ValueNames<'f>,
    pub kind: ValueKind,
}

/// How the texts of values become numbers, without the names: the kinds of [`Numbering`].
#[derive(Clone, Copy, Debug, PartialEq, Eq)]
pub enum NumberingKind {
    /// Each value is a decimal number: [`Numbering::Decimal`].
    Decimal,
    /// Each value is a hexadecimal number: [`Numbering::Hexadecimal`].
    Hexadecimal,
    /// Each value is 1, whatever its text is: [`Numbering::One`].
    One,
    /// Each value is a name: [`Numbering::Names`].
    Names,
}

/// Returns whether a name means false.
fn is_no(name: &[u8]) -> bool {
    is_same_name(name, b"N")
        || is_same_name(name, b"No")
        || is_same_name(name, b"F")
        || is_same_name(name, b"False")
}

/// Returns whether a name is `Y` or `N`.
fn is_yes_or_no(name: &[u8]) -> bool {
    is_same_name(name, b"Y") || is_same_name(name, b"N")
}

/// Returns whether the lines have only code points, or the only value of a property is the property
/// itself, as in `PropList.txt`.
fn is_set(columns: Columns<'_>, names: &[Name<'_>]) -> bool {
    match (columns, names) {
        (Columns::Field(0), _) => true,
        (Columns::Property(property), [value]) => is_same_name(value.text, property),
        (Columns::Property(property), [none, value]) => {
            none.text.is_empty() && is_same_name(value.text, property)
        }
        _ => false,
    }
}

/// Returns whether each name is `Y` or `N`, and there is one.
fn are_yes_or_no(names: &[Name<'_>]) -> bool {
    for name in names {
        if !is_yes_or_no(name.text) {
            return false;
        }
    }
    !names.is_empty()
}

/// Returns whether the values are true and false: those of Bidi_Mirrored in `UnicodeData.txt` are
/// `Y` and `N`; those of a property in a file of several can be the property itself and, in an
/// `@missing` line, `No`.
fn is_binary(columns: Columns<'_>, names: &[Name<'_>]) -> bool {
    match (columns, names) {
        (Columns::UnicodeData(_), [_, values @ ..]) => are_yes_or_no(values),
        (Columns::Property(property), [first, second]) => {
            is_no(first.text) && is_same_name(second.text, property)
                || is_no(second.text) && is_same_name(first.text, property)
        }
        _ => false,
    }
}

/// Returns what values are that only the file itself names.
fn own_kind(columns: Columns<'_>, names: &[Name<'_>]) -> ValueKind {
    if is_set(columns, names) {
        ValueKind::Set
    } else if is_binary(columns, names) {
        ValueKind::Binary
    } else {
        ValueKind::Own
    }
}

/// Returns what values are that the file of aliases names.
fn alias_kind(columns: Columns<'_>, names: &[Name<'_>]) -> ValueKind {
    if is_set(columns, names) {
        ValueKind::Set
    } else {
        ValueKind::Aliases
    }
}

/// Returns the names of the values in a file, in order of first appearance. The first number is 0
/// if the file says which value code points without a line have. Otherwise it is 1, and 0 is for
/// these.
fn own_names<'f>(input: &'f [u8], columns: Columns<'_>) -> Result<ValueNames<'f>, AllocError> {
    let mut names = ValueNames::new();
    if !has_missing_lines(input, columns) {
        names.try_push(0, b"")?;
    }
    names_in_order(input, columns, names)
}

/// Appends names with this number.
fn push_all<'f>(
    names: &mut ValueNames<'f>,
    number: usize,
    texts: &[&'f [u8]],
) -> Result<(), AllocError> {
    for text in texts {
        names.try_push(number, text)?;
    }
    Ok(())
}

/// Returns the names of true and false, of which the property itself is one of true.
fn binary_names<'f>(columns: Columns<'f>) -> Result<ValueNames<'f>, AllocError> {
    let mut names = ValueNames::new();
    if let Columns::Property(property) = columns {
        names.try_push(1, property)?;
    }
    push_all(&mut names, 0, &[b"N", b"No", b"F", b"False"])?;
    push_all(&mut names, 1, &[b"Y", b"Yes", b"T", b"True"])?;
    Ok(names)
}

/// Returns what the values of a file are that only the file itself names, and their names in order
/// of first appearance. The first number is 0 if the file says which value code points without a
/// line have. Otherwise it is 1, and 0 is for these. True and false have all their names, not only
/// those in the file.
///
/// # Errors
/// Returns [`AllocError`] if an allocation fails.
pub fn own_choice<'f>(input: &'f [u8], columns: Columns<'f>) -> Result<Choice<'f>, AllocError> {
    let names = own_names(input, columns)?;
    let kind = own_kind(columns, names.as_slice());
    let names = match kind {
        ValueKind::Binary => binary_names(columns)?,
        _ => names,
    };
    Ok(Choice { names, kind })
}

/// Returns what the values of a file are that a file of aliases names, and their names there. There
/// are none if the file of aliases has no such property.
///
/// # Errors
/// Returns [`AllocError`] if an allocation fails.
pub fn alias_choice<'f>(
    aliases: &'f [u8],
    property: &[u8],
    columns: Columns<'_>,
) -> Result<Choice<'f>, AllocError> {
    let names = alias_names(aliases, property)?;
    let kind = alias_kind(columns, names.as_slice());
    Ok(Choice { names, kind })
}

/// Returns how names are compared. The texts of a file itself are different values if they are not
/// equal; names in a file of aliases are written in several ways.
fn matching_of(kind: ValueKind) -> Matching {
    match kind {
        ValueKind::Own => Matching::Exact,
        ValueKind::Set | ValueKind::Binary | ValueKind::Aliases => Matching::Loose,
    }
}

/// Returns the numbering by names.
pub fn by_names<'n>(choice: &'n Choice<'n>) -> Numbering<'n> {
    Numbering::Names(&choice.names, matching_of(choice.kind))
}

/// Returns whether the title is that of a file in which field 1 of each line is a code point.
fn is_pair_title(title: &[u8]) -> bool {
    title.starts_with(b"BidiMirroring".as_slice())
        || title.starts_with(b"BidiBrackets".as_slice())
        || title.starts_with(b"EquivalentUnifiedIdeograph".as_slice())
}

/// Returns whether the values are code points by the title of the file.
pub fn is_pair_file(input: &[u8], columns: Columns<'_>) -> bool {
    match (columns, title_of(input)) {
        (Columns::Field(1), Some(title)) => is_pair_title(title),
        _ => false,
    }
}

/// Returns whether the values look as code points do, and not as decimal numbers: all have 4 to 6
/// hexadecimal digits, and one starts with `0`. Values of Unihan are no code points without `U+`.
fn are_marked(input: &[u8], columns: Columns<'_>) -> bool {
    match columns {
        Columns::Unihan(_) => false,
        _ => are_code_points(input, columns) && have_leading_zero(input, columns),
    }
}

/// Returns the kind of numbering that a file shows, whose values are of this kind.
fn shown_numbering(input: &[u8], columns: Columns<'_>, kind: ValueKind) -> NumberingKind {
    match (columns, kind) {
        (Columns::SimpleFolding | Columns::UnicodeData(12..=14), _) => NumberingKind::Hexadecimal,
        (_, ValueKind::Set) => NumberingKind::One,
        (_, ValueKind::Binary | ValueKind::Aliases) => NumberingKind::Names,
        _ if is_pair_file(input, columns) => NumberingKind::Hexadecimal,
        _ if are_marked(input, columns) => NumberingKind::Hexadecimal,
        _ if are_decimal(input, columns) => NumberingKind::Decimal,
        _ if are_code_points(input, columns) => NumberingKind::Hexadecimal,
        _ => NumberingKind::Names,
    }
}

/// Returns how the values of a file become numbers: as is asked for, or else as the file shows.
pub fn numbering_of<'n>(
    asked: Option<NumberingKind>,
    input: &[u8],
    columns: Columns<'_>,
    choice: &'n Choice<'n>,
) -> Numbering<'n> {
    let kind = match asked {
        Some(kind) => kind,
        None => shown_numbering(input, columns, choice.kind),
    };
    match kind {
        NumberingKind::Decimal => Numbering::Decimal,
        NumberingKind::Hexadecimal => Numbering::Hexadecimal,
        NumberingKind::One => Numbering::One,
        NumberingKind::Names => by_names(choice),
    }
}
