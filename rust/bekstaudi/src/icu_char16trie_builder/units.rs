//! The units of a trie of entries.

use crate::icu_char16trie_builder::entry::Entry;
use crate::icu_char16trie_builder::known::Known;
use crate::icu_char16trie_builder::step::{Step, take_step};
use crate::support::AllocError;
use crate::support::prelude::*;

/// Returns the units of a trie of entries whose keys ascend: at most two for each unit of a key,
/// and sixteen for each entry.
#[inline]
pub(crate) fn units_of(entries: &[Entry<'_>]) -> Result<Vec<u16>, AllocError> {
    let mut out = Vec::new();
    let mut places = Vec::new();
    let mut steps = Vec::new();
    steps.try_push(Step::Node(entries, 0))?;
    let mut known = Known::new();
    while let Some(step) = steps.pop() {
        take_step(&mut out, &mut places, &mut steps, &mut known, step)?;
    }
    out.reverse();
    Ok(out)
}
