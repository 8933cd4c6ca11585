//! The value that all keys ahead of a position have.
//!
//! Several nodes may lead to the same node, so a few units can have very many keys. Each node comes
//! before those that it leads to, so one pass visits each node once. It marks the indices of the
//! nodes that are still to come.

use crate::icu_char16trie::place::Place;
use crate::icu_char16trie::soundness::check_node;
use crate::icu_char16trie::step::value_at;
use crate::icu_zerovec::{MemoryError, ZeroSlice};
use crate::support::prelude::*;

/// Returns the index of the node that comes after the rest of a linear match. `None` if nothing
/// matched or there is no unit at that index.
#[inline]
fn node_ahead(units: ZeroSlice<'_, u16>, place: Place) -> Option<usize> {
    let node = match place {
        Place::Nowhere => return None,
        Place::Node(node) => node,
        Place::Run(next, left) => next + (usize::from(left) + 1),
    };
    if node >= units.len() {
        return None;
    }
    Some(node)
}

/// Returns true if no other value was found before.
#[inline]
fn agrees(found: Option<i32>, value: i32) -> bool {
    match found {
        None => true,
        Some(other) => other == value,
    }
}

/// Visits a node, marks the nodes that it leads to, and returns the value that was found so far.
/// `None` if the node is not valid or has another value.
fn pass_node(
    units: ZeroSlice<'_, u16>,
    wanted: &mut [bool],
    place: usize,
    found: Option<i32>,
) -> Option<Option<i32>> {
    check_node(units, wanted, place)?;
    let Some(value) = value_at(units, Place::Node(place)) else {
        return Some(found);
    };
    if !agrees(found, value) {
        return None;
    }
    Some(Some(value))
}

/// Returns the value of all entries of the node at `root`, the only index that is marked in
/// `wanted`. `None` if the values differ or the units are no trie from there on.
#[inline]
fn value_of_wanted(units: ZeroSlice<'_, u16>, wanted: &mut [bool], root: usize) -> Option<i32> {
    let mut found = None;
    for place in root..units.len() {
        if wanted[place] {
            found = pass_node(units, wanted, place, found)?;
        }
    }
    found
}

/// Returns the value of all keys ahead of a position. `None` if the values differ, if there is no
/// key, or if the units are no trie from there on.
#[inline]
pub(crate) fn unique_value_at(
    units: ZeroSlice<'_, u16>,
    place: Place,
) -> Result<Option<i32>, MemoryError> {
    let Some(node) = node_ahead(units, place) else {
        return Ok(None);
    };
    let mut wanted = try_vec![false; units.len()]?;
    wanted[node] = true;
    Ok(value_of_wanted(units, &mut wanted, node))
}
