//! Steps of a cursor, and the value at a position.

use crate::icu_char16trie::branch::child_in_part;
use crate::icu_char16trie::encoded::{node_end, node_number, short_number, unit_at};
use crate::icu_char16trie::impl_const::{MIN_LINEAR_MATCH, MIN_VALUE_LEAD, VALUE_IS_FINAL};
use crate::icu_char16trie::place::Place;
use crate::icu_zerovec::ZeroSlice;
use crate::support::prelude::*;

/// Returns the position after the unit `unit` in a linear match that has `left + 1` units left.
#[inline(always)]
fn step_in_run(units: ZeroSlice<'_, u16>, place: usize, left: u8, unit: u16) -> Place {
    let Some(next) = unit_at(units, place) else {
        return Place::Nowhere;
    };
    if next != unit {
        return Place::Nowhere;
    }
    match left.checked_sub(1) {
        Some(left) => Place::Run(place + 1, left),
        None => Place::Node(place + 1),
    }
}

/// Returns the position after the unit `unit` at a branch with `length` entries.
#[inline(always)]
fn step_in_branch(units: ZeroSlice<'_, u16>, place: usize, length: usize, unit: u16) -> Place {
    match child_in_part(units, place, length, unit) {
        Some(child) => Place::Node(child),
        None => Place::Nowhere,
    }
}

/// Returns the position after the unit `unit` at a match node. `low` is the low six bits of its
/// lead unit, and `place` is the index after the lead and its value.
#[inline(always)]
fn step_in_match(units: ZeroSlice<'_, u16>, place: usize, low: u16, unit: u16) -> Place {
    if low >= MIN_LINEAR_MATCH {
        return step_in_run(units, place, (low - MIN_LINEAR_MATCH) as u8, unit);
    }
    if low > 0 {
        return step_in_branch(units, place, usize::from(low) + 1, unit);
    }
    match unit_at(units, place) {
        Some(length) => step_in_branch(units, place + 1, usize::from(length) + 1, unit),
        None => Place::Nowhere,
    }
}

/// Returns the position after the unit `unit` at a node.
#[inline(always)]
fn step_in_node(units: ZeroSlice<'_, u16>, place: usize, unit: u16) -> Place {
    let Some(lead) = unit_at(units, place) else {
        return Place::Nowhere;
    };
    if lead >= VALUE_IS_FINAL {
        return Place::Nowhere;
    }
    if lead < MIN_VALUE_LEAD {
        return step_in_match(units, place + 1, lead, unit);
    }
    step_in_match(
        units,
        node_end(place + 1, lead),
        lead % MIN_VALUE_LEAD,
        unit,
    )
}

/// Returns the position after one more unit.
#[inline(always)]
pub(crate) fn step(units: ZeroSlice<'_, u16>, place: Place, unit: u16) -> Place {
    match place {
        Place::Nowhere => Place::Nowhere,
        Place::Node(node) => step_in_node(units, node, unit),
        Place::Run(next, left) => step_in_run(units, next, left, unit),
    }
}

/// Returns the value of the node whose lead unit is before `place`. It is 0 if some of its units
/// are missing.
#[inline(always)]
pub(crate) fn value_by(units: ZeroSlice<'_, u16>, place: usize, lead: u16) -> Option<i32> {
    if lead < MIN_VALUE_LEAD {
        None
    } else if lead < VALUE_IS_FINAL {
        Some(node_number(units, place, lead).unwrap_or(0).cast_signed())
    } else {
        Some(
            short_number(units, place, lead - VALUE_IS_FINAL)
                .unwrap_or(0)
                .cast_signed(),
        )
    }
}

/// Returns the value at a position.
#[inline(always)]
pub(crate) fn value_at(units: ZeroSlice<'_, u16>, place: Place) -> Option<i32> {
    match place {
        Place::Node(node) => {
            let lead = unit_at(units, node)?;
            value_by(units, node + 1, lead)
        }
        Place::Nowhere | Place::Run(_, _) => None,
    }
}

/// Returns true if no unit can match at a position.
#[inline]
pub(crate) fn is_empty_at(units: ZeroSlice<'_, u16>, place: Place) -> bool {
    match place {
        Place::Nowhere => true,
        Place::Node(node) => unit_at(units, node).is_none_or(|lead| lead >= VALUE_IS_FINAL),
        Place::Run(_, _) => false,
    }
}
