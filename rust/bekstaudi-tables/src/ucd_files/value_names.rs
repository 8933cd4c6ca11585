//! Names of values, each of which is found without a comparison with all others.

use crate::host::*;
use crate::support::AllocError;
use crate::support::HashMap;
use crate::support::prelude::*;
use crate::ucd_files::names::{Matching, Name, first_significant, is_match};

/// By what a hash is multiplied before a byte is added: the prime of the hash FNV-1a.
const FACTOR: u64 = 0x100_0000_01b3;

/// Names of values with their numbers, in order. Several can be the same name: the first one
/// counts.
#[derive(Debug)]
pub struct ValueNames<'a> {
    names: Vec<Name<'a>>,
    // For each hash, the indices of the names that have it, in order. The hash is of what counts if
    // names are compared, so names that are the same are in one group, and a look-up allocates
    // nothing.
    groups: HashMap<u64, Vec<usize>>,
}

/// Returns the hash of a name, which is the same for all names that are the same.
fn hash_of(text: &[u8]) -> u64 {
    let mut hash = 0u64;
    let mut rest = text;
    while let Some((byte, after)) = first_significant(rest) {
        hash = hash.wrapping_mul(FACTOR).wrapping_add(u64::from(byte));
        rest = after;
    }
    hash
}

/// Appends the index of a name to the group of its hash.
fn push_in_group(
    groups: &mut HashMap<u64, Vec<usize>>,
    hash: u64,
    index: usize,
) -> Result<(), AllocError> {
    groups.try_or_default(hash)?.try_push(index)?;
    Ok(())
}

/// Returns the number of the first of the names at these indices that matches the text.
fn number_among(
    names: &[Name<'_>],
    indices: &[usize],
    matching: Matching,
    text: &[u8],
) -> Option<usize> {
    for index in indices {
        if let Some(name) = names.get(*index) {
            if is_match(matching, name.text, text) {
                return Some(name.number);
            }
        }
    }
    None
}

impl<'a> ValueNames<'a> {
    /// Creates an empty list of names. Allocates nothing.
    pub fn new() -> Self {
        ValueNames {
            names: Vec::new(),
            groups: HashMap::new(),
        }
    }

    /// Returns the names in order.
    pub fn as_slice(&self) -> &[Name<'a>] {
        self.names.as_slice()
    }

    /// Returns the number of the first of the names that matches the text.
    pub fn number_named(&self, matching: Matching, text: &[u8]) -> Option<usize> {
        let group = self.groups.get(&hash_of(text))?;
        number_among(self.names.as_slice(), group, matching, text)
    }

    /// Appends a name with its number.
    ///
    /// # Errors
    /// Returns [`AllocError`] if an allocation fails. The names are unchanged then.
    pub fn try_push(&mut self, number: usize, text: &'a [u8]) -> Result<(), AllocError> {
        self.names.try_room(1)?;
        push_in_group(&mut self.groups, hash_of(text), self.names.len())?;
        self.names.push(Name { text, number });
        Ok(())
    }
}
