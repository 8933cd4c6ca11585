//! The static trie that follows a table's module in Rust.
use crate::clap::ArgMatches;
use crate::host::*;
use crate::support::AllocError;
use crate::support::prelude::*;
use crate::ucd_files::names::Name;
use crate::ucptrie::names::name_in;
use crate::ucptrie_names::static_source::static_source;
use crate::ucptrie_tables::width::ValueWidth;

/// Returns whether the arguments ask for a static trie.
pub fn is_static(matches: &ArgMatches<'_>) -> bool {
    matches!(matches.get_str("as"), Some("rust-static"))
}

/// Returns a table in a form, followed by its static trie if the arguments ask for that. `names`
/// are those of its values, if they have any.
pub fn with_static(
    matches: &ArgMatches<'_>,
    bytes: Vec<u8>,
    width: ValueWidth,
    names: &[Name<'_>],
) -> Result<Vec<u8>, AllocError> {
    let mut bytes = bytes;
    if is_static(matches) {
        let source = static_source(name_in(matches), width.bits(), names)?;
        bytes.try_extend_from_slice(source.as_bytes())?;
    }
    Ok(bytes)
}
