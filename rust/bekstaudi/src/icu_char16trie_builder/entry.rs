//! Entries on their way into a trie.

use crate::support::prelude::*;
/// A key and its value.
#[derive(Clone, Copy)]
pub(crate) struct Entry<'a> {
    pub(crate) key: &'a [u16],
    pub(crate) value: i32,
}

/// An entry of a branch: a unit, and the entries whose keys continue with it.
#[derive(Clone, Copy)]
pub(crate) struct Arm<'a> {
    pub(crate) unit: u16,
    pub(crate) entries: &'a [Entry<'a>],
}
