//! The units that can come next in some key.

use crate::icu_char16trie::encoded::{delta_end, lower_part, node_end, short_end, two_at, unit_at};
use crate::icu_char16trie::impl_const::{
    MAX_BRANCH_LINEAR_SUB_NODE_LENGTH, MIN_LINEAR_MATCH, MIN_VALUE_LEAD, VALUE_IS_FINAL,
};
use crate::icu_char16trie::place::Place;
use crate::icu_zerovec::ZeroSlice;
use crate::support::AllocError;
use crate::support::prelude::*;

/// Adds the unit at an index, if it is there.
#[inline]
fn add_unit(
    list: &mut Vec<u16>,
    units: ZeroSlice<'_, u16>,
    place: usize,
) -> Result<(), AllocError> {
    if let Some(unit) = unit_at(units, place) {
        list.try_push(unit)?;
    }
    Ok(())
}

/// Adds the units of a row, which has at most five entries.
fn add_row(
    list: &mut Vec<u16>,
    units: ZeroSlice<'_, u16>,
    row: usize,
    count: usize,
) -> Result<(), AllocError> {
    let mut left = count;
    let mut place = row;
    while left > 1 {
        let Some((unit, value)) = two_at(units, place) else {
            return Ok(());
        };
        list.try_push(unit)?;
        place = short_end(place + 2, value % VALUE_IS_FINAL);
        left -= 1;
    }
    add_unit(list, units, place)?;
    Ok(())
}

/// Adds the units of a part of a branch.
fn add_part(
    list: &mut Vec<u16>,
    units: ZeroSlice<'_, u16>,
    part: usize,
    count: usize,
) -> Result<(), AllocError> {
    if count <= MAX_BRANCH_LINEAR_SUB_NODE_LENGTH {
        add_row(list, units, part, count)?;
        return Ok(());
    }
    let Some((_split, delta)) = two_at(units, part) else {
        return Ok(());
    };
    let half = count / 2;
    if let Some(low) = lower_part(units, part + 2, delta) {
        add_part(list, units, low, half)?;
    }
    add_part(list, units, delta_end(part + 2, delta), count - half)?;
    Ok(())
}

/// Adds the units that can come next at a match node. `low` is the low six bits of its lead unit,
/// and `place` is the index after the lead and its value.
fn add_match(
    list: &mut Vec<u16>,
    units: ZeroSlice<'_, u16>,
    place: usize,
    low: u16,
) -> Result<(), AllocError> {
    if low >= MIN_LINEAR_MATCH {
        add_unit(list, units, place)?;
        return Ok(());
    }
    if low > 0 {
        add_part(list, units, place, low as usize + 1)?;
        return Ok(());
    }
    if let Some(length) = unit_at(units, place) {
        add_part(list, units, place + 1, length as usize + 1)?;
    }
    Ok(())
}

/// Adds the units that can come next at a node.
#[inline]
fn add_node(list: &mut Vec<u16>, units: ZeroSlice<'_, u16>, node: usize) -> Result<(), AllocError> {
    let Some(lead) = unit_at(units, node) else {
        return Ok(());
    };
    if lead >= VALUE_IS_FINAL {
        return Ok(());
    }
    add_match(list, units, node_end(node + 1, lead), lead % MIN_VALUE_LEAD)?;
    Ok(())
}

/// Adds the units that can come next at a position.
#[inline]
pub(crate) fn add_units(
    list: &mut Vec<u16>,
    units: ZeroSlice<'_, u16>,
    place: Place,
) -> Result<(), AllocError> {
    match place {
        Place::Nowhere => {}
        Place::Node(node) => add_node(list, units, node)?,
        Place::Run(next, _left) => add_unit(list, units, next)?,
    }
    Ok(())
}
