//! The properties of a TOML file that have a trie, and the table of one of them.

use crate::host::*;
use crate::support::AllocError;
use crate::support::prelude::*;
use crate::ucd_files::value_names::ValueNames;
use crate::ucptrie_readers::error::ReadError;
use crate::ucptrie_readers::parsed::ParsedFile;
use crate::ucptrie_readers::read::{read_table, table_of_members, trie_of_table, value_at};
use crate::ucptrie_readers::toml_names::{NamesError, items_in, names_of};
use crate::ucptrie_tables::table::Table;

/// A property that has a trie.
#[derive(Clone, Copy)]
struct Property<'a> {
    /// The key of the file at which it is.
    key: &'a str,
    /// Its own table.
    table: &'a crate::toml::Table,
    /// The table of its trie.
    trie: &'a crate::toml::Table,
}

/// Why a file has no table of a property.
#[derive(Debug)]
pub enum PropertyError {
    /// The file has no table, or that of the property is not one.
    Read(ReadError),
    /// The file is not TOML, so its table is that of no property.
    NotToml,
    /// No property has this name and a trie. These have a trie.
    Missing(String),
    /// These properties have a trie, and the name is not that of exactly one.
    Several(String),
}

impl From<ReadError> for PropertyError {
    fn from(fault: ReadError) -> PropertyError {
        PropertyError::Read(fault)
    }
}

impl From<AllocError> for PropertyError {
    fn from(_error: AllocError) -> PropertyError {
        PropertyError::Read(ReadError::Memory)
    }
}

/// Returns the text at a key of a property, as icuexportdata writes its names.
fn text_at<'a>(table: &'a crate::toml::Table, key: &str) -> Option<&'a str> {
    value_at(table, key)?.as_str()
}

/// Returns whether the text at a key of a property is this one.
fn has_text(table: &crate::toml::Table, key: &str, text: &str) -> bool {
    match text_at(table, key) {
        Some(found) => found == text,
        None => false,
    }
}

/// Returns the name by which messages call the property.
fn name_of<'a>(property: &Property<'a>) -> &'a str {
    text_at(property.table, "long_name").unwrap_or(property.key)
}

/// Returns whether the property has this name: its key, its long name or its short one.
fn is_named(property: &Property<'_>, name: &str) -> bool {
    property.key == name
        || has_text(property.table, "long_name", name)
        || has_text(property.table, "short_name", name)
}

/// Returns whether a property is asked for: it has the name, or none is asked.
fn is_asked(property: &Property<'_>, name: Option<&str>) -> bool {
    match name {
        Some(name) => is_named(property, name),
        None => true,
    }
}

/// Returns the property that a value at a key is, if the value is a table with a trie.
fn property_of<'a>(key: &'a str, value: &'a crate::toml::Value) -> Option<Property<'a>> {
    let table = value.as_table()?;
    let trie = trie_of_table(table)?;
    Some(Property { key, table, trie })
}

/// Appends the property of a value, if it has a trie and is asked for.
fn push_property<'a>(
    found: &mut Vec<Property<'a>>,
    key: &'a str,
    value: &'a crate::toml::Value,
    name: Option<&str>,
) -> Result<(), AllocError> {
    if let Some(property) = property_of(key, value) {
        if is_asked(&property, name) {
            found.try_push(property)?;
        }
    }
    Ok(())
}

/// Appends those of the properties at a key that are asked for.
fn push_items<'a>(
    found: &mut Vec<Property<'a>>,
    key: &'a str,
    values: &'a [crate::toml::Value],
    name: Option<&str>,
) -> Result<(), AllocError> {
    let mut rest = values;
    while let [value, after @ ..] = rest {
        push_property(found, key, value, name)?;
        rest = after;
    }
    Ok(())
}

/// Appends those of the properties at a key that are asked for: the items of an array, or the one
/// that the value is.
fn push_properties<'a>(
    found: &mut Vec<Property<'a>>,
    key: &'a str,
    value: &'a crate::toml::Value,
    name: Option<&str>,
) -> Result<(), AllocError> {
    match items_in(value) {
        Some(values) => push_items(found, key, values, name),
        None => push_property(found, key, value, name),
    }
}

/// Returns the properties with a trie that are asked for, in order of their keys.
fn properties_of<'a>(
    file: &'a crate::toml::Table,
    name: Option<&str>,
) -> Result<Vec<Property<'a>>, AllocError> {
    let mut found = Vec::new();
    for (key, value) in file.iter() {
        push_properties(&mut found, key.as_str(), value, name)?;
    }
    Ok(found)
}

/// Returns the names of properties, with commas between them.
fn listed(properties: &[Property<'_>]) -> Result<String, AllocError> {
    let mut names = String::new();
    let [first, others @ ..] = properties else {
        return Ok(names);
    };
    names.try_push_str(name_of(first))?;
    let mut rest = others;
    while let [property, after @ ..] = rest {
        names.try_push_str(", ")?;
        names.try_push_str(name_of(property))?;
        rest = after;
    }
    Ok(names)
}

/// Returns the table of the trie that is asked for: that of the only property with a trie and the
/// name, or the whole file if no property has a trie and no name is asked.
fn asked_trie<'a>(
    file: &'a crate::toml::Table,
    name: Option<&str>,
) -> Result<&'a crate::toml::Table, PropertyError> {
    let found = properties_of(file, name)?;
    match (found.as_slice(), name) {
        ([property], _) => Ok(property.trie),
        ([], None) => Ok(file),
        ([], Some(_)) => {
            let all = properties_of(file, None)?;
            Err(PropertyError::Missing(listed(&all)?))
        }
        (several, _) => Err(PropertyError::Several(listed(several)?)),
    }
}

/// Returns the names of the values of the property whose table [`read_property`] reads from a file,
/// as [`names_of`] does. Returns none if no property is chosen, or the file is not taken for TOML.
///
/// # Errors
/// Returns those of [`names_of`].
pub fn property_names<'a>(
    file: &'a ParsedFile<'_>,
    name: Option<&str>,
) -> Result<ValueNames<'a>, NamesError> {
    let Some(toml) = file.toml() else {
        return Ok(ValueNames::new());
    };
    let found = properties_of(toml, name)?;
    match found.as_slice() {
        [property] => names_of(property.table),
        _ => Ok(ValueNames::new()),
    }
}

/// Reads the table that a file has, as [`read_table`] does, but in TOML only that of the property
/// with this name, or of the only property with a trie if no name is asked.
///
/// A name is the key of a property in the file, or its `long_name` or `short_name`.
///
/// # Errors
/// Returns [`PropertyError::Several`] if several properties have a trie, and the name, if one is
/// asked, and [`PropertyError::Missing`] if none has that name. Returns [`PropertyError::NotToml`]
/// if a name is asked of a file in another form. Other errors are those of [`read_table`].
pub fn read_property(file: &ParsedFile<'_>, name: Option<&str>) -> Result<Table, PropertyError> {
    if let Some(toml) = file.toml() {
        let trie = asked_trie(toml, name)?;
        return Ok(table_of_members(trie)?);
    }
    if name.is_some() {
        return Err(PropertyError::NotToml);
    }
    Ok(read_table(file.bytes())?)
}
