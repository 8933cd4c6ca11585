//! A set in Rust as a static set of the crate `bekstaudi`.

use crate::host::*;
use crate::support::AllocError;
use crate::support::prelude::*;
use crate::ucptab_table::pattern::push_named;
use crate::ucptrie_sets::source::{push_boundaries, title_of};
use bekstaudi::codepointinvlist::CodePointInversionList;

/// What precedes the boundaries. `@` is replaced by the name in capitals.
const HEAD: &str = "\
/// The set `@`.
#[allow(dead_code)]
#[rustfmt::skip]
pub static @: bekstaudi::codepointinvlist::CodePointInversionList<'static> =
    bekstaudi::codepointinvlist::CodePointInversionList::from_static(bekstaudi::zeroslice!(
        bekstaudi::zerovec::PotentialCodePoint as u32; [
";

/// What follows the boundaries.
const END: &str = "
    ]));
";

/// Returns a text with its ASCII letters in capitals.
fn capitals(text: &str) -> Result<String, AllocError> {
    let mut capitals = String::new();
    capitals.try_push_str(text)?;
    capitals.make_ascii_uppercase();
    Ok(capitals)
}

/// Appends what precedes the boundaries of a set with this name.
fn push_head(text: &mut String, name: &str) -> Result<(), AllocError> {
    let capitals = capitals(name)?;
    push_named(text, HEAD, capitals.as_str())
}

/// Appends what follows the boundaries.
fn push_end(text: &mut String) -> Result<(), AllocError> {
    text.try_push_str(END)
}

/// Returns the set in Rust: a static set, whose name is this one in capitals.
pub(crate) fn static_text(
    set: &CodePointInversionList<'_>,
    name: &str,
) -> Result<String, AllocError> {
    let mut text = title_of(set)?;
    push_head(&mut text, name)?;
    push_boundaries(&mut text, set)?;
    push_end(&mut text)?;
    Ok(text)
}
