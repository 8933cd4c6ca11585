//! Turns a node of entries into the steps that write it. The step to be taken first is pushed last.

use crate::icu_char16trie::impl_const::{
    MAX_BRANCH_LINEAR_SUB_NODE_LENGTH, MAX_LINEAR_MATCH_LENGTH,
};
use crate::icu_char16trie_builder::arms::{arms_of, shared_len};
use crate::icu_char16trie_builder::entry::{Arm, Entry};
use crate::icu_char16trie_builder::level::write_tail;
use crate::icu_char16trie_builder::step::Step;
use crate::support::AllocError;
use crate::support::prelude::*;

/// Returns the value of an arm whose only key ends at `depth`.
#[inline]
fn final_value(arm: Arm<'_>, depth: usize) -> Option<i32> {
    if let Some((only, rest)) = arm.entries.split_first() {
        if rest.is_empty() && only.key.len() <= depth {
            return Some(only.value);
        }
    }
    None
}

/// Returns the units of a key from `depth` on.
#[inline]
pub(crate) fn units_from(key: &[u16], depth: usize) -> &[u16] {
    if key.len() < depth {
        return key.split_at(key.len()).1;
    }
    key.split_at(depth).1
}

/// Returns the first arm.
#[inline]
fn first_arm<'a>(arms: &[Arm<'a>]) -> Arm<'a> {
    arms[0]
}

/// Adds the steps of the part of a branch with these arms. The first `depth` units of their keys
/// have been passed.
///
/// More than five arms are split in halves; of at most five, one is taken at a time. There are at
/// most 65,536 arms, so the recursion is at most 18 deep.
fn push_part<'a>(
    steps: &mut Vec<Step<'a>>,
    arms: &[Arm<'a>],
    depth: usize,
) -> Result<(), AllocError> {
    if arms.len() > MAX_BRANCH_LINEAR_SUB_NODE_LENGTH {
        let (lower, upper) = arms.split_at(arms.len() / 2);
        steps.try_push(Step::Split(first_arm(upper).unit))?;
        push_part(steps, upper, depth)?;
        steps.try_push(Step::Save)?;
        push_part(steps, lower, depth)?;
        return Ok(());
    }
    let first = first_arm(arms);
    let rest = arms.split_at(1).1;
    if rest.is_empty() {
        steps.try_push(Step::Last(first.unit))?;
        steps.try_push(Step::Node(first.entries, depth))?;
        return Ok(());
    }
    if let Some(value) = final_value(first, depth) {
        steps.try_push(Step::Value(first.unit, value))?;
        push_part(steps, rest, depth)?;
        return Ok(());
    }
    steps.try_push(Step::Jump(first.unit))?;
    push_part(steps, rest, depth)?;
    steps.try_push(Step::Place(first.entries, depth))?;
    Ok(())
}

/// Adds the steps of a linear match: the unit that all keys have at `depth`, and up to fifteen more
/// that they share.
fn push_run<'a>(
    steps: &mut Vec<Step<'a>>,
    first: &Entry<'a>,
    entries: &'a [Entry<'a>],
    depth: usize,
    value: Option<i32>,
) -> Result<(), AllocError> {
    let units = units_from(first.key, depth);
    let most = MAX_LINEAR_MATCH_LENGTH as usize - 1;
    let shared = 1 + shared_len(units_from(units, 1), entries, depth + 1, most);
    steps.try_push(Step::Run(units.split_at(shared).0, value))?;
    steps.try_push(Step::Node(entries, depth + shared))?;
    Ok(())
}

/// Adds the steps of a match node: a linear match if all keys continue with one unit, and otherwise
/// a branch. `value` is that of the key that ends at `depth`.
fn push_match<'a>(
    steps: &mut Vec<Step<'a>>,
    first: &Entry<'a>,
    entries: &'a [Entry<'a>],
    depth: usize,
    value: Option<i32>,
) -> Result<(), AllocError> {
    let arms = arms_of(entries, depth)?;
    if arms.len() > 1 {
        steps.try_push(Step::Branch(arms.len(), value))?;
        push_part(steps, arms.as_slice(), depth + 1)?;
        return Ok(());
    }
    push_run(steps, first, entries, depth, value)
}

/// Adds the steps of the match node of entries whose keys have more than `depth` units.
#[inline]
fn push_entries<'a>(
    steps: &mut Vec<Step<'a>>,
    entries: &'a [Entry<'a>],
    depth: usize,
    value: Option<i32>,
) -> Result<(), AllocError> {
    if let Some(first) = entries.first() {
        push_match(steps, first, entries, depth, value)?;
    }
    Ok(())
}

/// Adds the steps of the node of several entries. The first key may end at `depth`.
fn push_node<'a>(
    steps: &mut Vec<Step<'a>>,
    entries: &'a [Entry<'a>],
    depth: usize,
) -> Result<(), AllocError> {
    if let Some((first, rest)) = entries.split_first() {
        if first.key.len() <= depth {
            push_entries(steps, rest, depth, Some(first.value))?;
            return Ok(());
        }
        push_entries(steps, entries, depth, None)?;
    }
    Ok(())
}

/// Opens the node of entries whose keys have passed `depth` units. Writes the node if it has one
/// entry, and otherwise adds its steps.
pub(crate) fn open_node<'a>(
    out: &mut Vec<u16>,
    steps: &mut Vec<Step<'a>>,
    entries: &'a [Entry<'a>],
    depth: usize,
) -> Result<(), AllocError> {
    if let Some((first, rest)) = entries.split_first() {
        if rest.is_empty() {
            write_tail(out, units_from(first.key, depth), first.value)?;
            return Ok(());
        }
        push_node(steps, entries, depth)?;
    }
    Ok(())
}
