//! What a TOML file of ICU's icuexportdata has if it has neither a trie of code points nor a set.

use crate::host::*;
use crate::support::prelude::*;
use crate::ucptrie_readers::read::value_at;
use crate::ucptrie_readers::toml_names::items_at;

/// What a TOML file has in place of a trie of code points.
#[derive(Clone, Copy, Debug, PartialEq, Eq)]
pub enum OtherToml {
    /// The units of a trie over pairs of characters, as in `compositions.toml`.
    Compositions,
    /// The characters of decompositions, as in `nfdex.toml` and `nfkdex.toml`.
    Scalars,
    /// Names of files, as in `_index.toml`.
    Files,
    /// Names of masks of values, as in `gcm.toml`.
    Masks,
}

/// Returns whether a table has a key.
fn has_key(table: &crate::toml::Table, key: &str) -> bool {
    value_at(table, key).is_some()
}

/// Returns whether the first item of the array `index` has the name of a file.
fn has_files(file: &crate::toml::Table) -> bool {
    let Some([first, ..]) = items_at(file, "index") else {
        return false;
    };
    match first.as_table() {
        Some(table) => has_key(table, "filename"),
        None => false,
    }
}

/// Returns what a file has, by its keys, or `None` if it has none of these.
pub fn other_toml(file: &crate::toml::Table) -> Option<OtherToml> {
    if has_key(file, "compositions") {
        Some(OtherToml::Compositions)
    } else if has_key(file, "scalars16") || has_key(file, "scalars32") {
        Some(OtherToml::Scalars)
    } else if has_key(file, "mask_property") {
        Some(OtherToml::Masks)
    } else if has_files(file) {
        Some(OtherToml::Files)
    } else {
        None
    }
}

impl core::fmt::Display for OtherToml {
    fn fmt(&self, f: &mut core::fmt::Formatter<'_>) -> core::fmt::Result {
        match self {
            OtherToml::Compositions => f.write_str("has compositions of characters, in a trie of units, and no table of code points"),
            OtherToml::Scalars => f.write_str("has the characters of decompositions, to which the values in another file point, and no table"),
            OtherToml::Files => f.write_str("has names of files, and no table"),
            OtherToml::Masks => f.write_str("has names of masks for the values of another property, and no table"),
        }
    }
}

impl core::error::Error for OtherToml {}
