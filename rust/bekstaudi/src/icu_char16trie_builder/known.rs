//! Nodes that were written, so that an equal node is not written again.

use crate::icu_char16trie_builder::entry::Entry;
use crate::icu_char16trie_builder::open::units_from;
use crate::support::AllocError;
use crate::support::HashMap;
use crate::support::prelude::*;

/// The number of entries, and of units of a key, that go into a hash.
const HASHED: usize = 16;

/// A node that was written: its entries, the number of units of their keys that have been passed,
/// and its index, counted from the end of the units.
#[derive(Clone, Copy)]
pub(crate) struct KnownNode<'a> {
    pub(crate) entries: &'a [Entry<'a>],
    pub(crate) depth: usize,
    pub(crate) place: usize,
}

/// The nodes that were written.
pub(crate) struct Known<'a> {
    nodes: Vec<KnownNode<'a>>,
    // The last node of each hash. Any hash function is correct, because the entries are compared.
    last: HashMap<u64, usize>,
}

/// Mixes one more number into a hash.
#[inline]
fn mixed(hash: u64, number: u64) -> u64 {
    (hash.rotate_left(5) ^ number).wrapping_mul(0x517C_C1B7_2722_0A95)
}

/// Mixes the units of a key into a hash.
#[inline]
fn with_key(hash: u64, units: &[u16]) -> u64 {
    let mut hash = mixed(hash, units.len() as u64);
    for unit in units.split_at(units.len().min(HASHED)).0 {
        hash = mixed(hash, u64::from(*unit));
    }
    hash
}

/// Returns the hash of a node. Equal nodes have equal hashes.
#[inline]
fn hash_of(entries: &[Entry<'_>], depth: usize) -> u64 {
    let mut hash = entries.len() as u64;
    for entry in entries.split_at(entries.len().min(HASHED)).0 {
        hash = with_key(hash, units_from(entry.key, depth));
        hash = mixed(hash, u64::from(entry.value.cast_unsigned()));
    }
    hash
}

/// Returns true if the first entries of two lists are equal, each without the units of its key that
/// have been passed.
#[inline]
fn begin_alike(a: &[Entry<'_>], a_depth: usize, b: &[Entry<'_>], b_depth: usize) -> bool {
    if let (Some((x, _)), Some((y, _))) = (a.split_first(), b.split_first()) {
        return x.value == y.value && units_from(x.key, a_depth) == units_from(y.key, b_depth);
    }
    false
}

/// Returns true if two lists of entries are the same map, each without the units of its keys that
/// have been passed.
#[inline]
fn are_alike(a: &[Entry<'_>], a_depth: usize, b: &[Entry<'_>], b_depth: usize) -> bool {
    if a.len() != b.len() {
        return false;
    }
    for i in 0..a.len() {
        if !begin_alike(a.split_at(i).1, a_depth, b.split_at(i).1, b_depth) {
            return false;
        }
    }
    true
}

impl<'a> Known<'a> {
    /// Creates an empty list of nodes. Allocates nothing.
    #[inline]
    pub(crate) fn new() -> Self {
        Known {
            nodes: Vec::new(),
            last: HashMap::new(),
        }
    }

    /// Returns the index of a known node of these entries, if one is found.
    #[inline]
    pub(crate) fn find(&self, entries: &[Entry<'_>], depth: usize) -> Option<usize> {
        let i = *self.last.get(&hash_of(entries, depth))?;
        let known = self.nodes.get(i)?;
        if !are_alike(known.entries, known.depth, entries, depth) {
            return None;
        }
        Some(known.place)
    }

    /// Adds the node of these entries, which was written at `place`.
    pub(crate) fn add(
        &mut self,
        entries: &'a [Entry<'a>],
        depth: usize,
        place: usize,
    ) -> Result<(), AllocError> {
        self.last
            .try_insert(hash_of(entries, depth), self.nodes.len())?;
        self.nodes.try_push(KnownNode {
            entries,
            depth,
            place,
        })?;
        Ok(())
    }
}
