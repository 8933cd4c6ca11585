//! The steps in which a trie is written, last unit first.
//!
//! The steps that are left are on a stack, so there is no recursion for each unit of a key. Besides
//! it there are the units so far, a stack of saved indices, and the known nodes.

use crate::icu_char16trie_builder::entry::Entry;
use crate::icu_char16trie_builder::known::Known;
use crate::icu_char16trie_builder::level::{
    write_branch, write_jump, write_last, write_run, write_split, write_value,
};
use crate::icu_char16trie_builder::open::open_node;
use crate::support::AllocError;
use crate::support::prelude::*;

/// One step of writing. It needs what is in front of the units so far, or at the index saved last.
#[derive(Clone, Copy)]
pub(crate) enum Step<'a> {
    /// Puts the node of these entries in front. The number is how many units of their keys have
    /// been passed.
    Node(&'a [Entry<'a>], usize),
    /// Saves the index of what is in front.
    Save,
    /// Saves the index of a node of these entries: of a known one, or else of a new one.
    Place(&'a [Entry<'a>], usize),
    /// Adds the node of these entries, which is in front, to the known nodes and saves its index.
    Keep(&'a [Entry<'a>], usize),
    /// Writes the unit of the last entry of a row, in front of its node.
    Last(u16),
    /// Writes an entry of a row in front of the others. Its node is at the index saved last.
    Jump(u16),
    /// Writes an entry of a row in front of the others, with its final value.
    Value(u16, i32),
    /// Writes a split in front of the part with the upper entries. The part with the lower ones is
    /// at the index saved last.
    Split(u16),
    /// Writes a linear match of these units in front of its node, and its own value, if it has one.
    Run(&'a [u16], Option<i32>),
    /// Writes the lead of a branch with this number of entries in front of its part, and its own
    /// value, if it has one.
    Branch(usize, Option<i32>),
}

/// Saves the index of a known node of these entries, or adds the steps that write one.
fn place_node<'a>(
    places: &mut Vec<usize>,
    steps: &mut Vec<Step<'a>>,
    known: &Known<'a>,
    entries: &'a [Entry<'a>],
    depth: usize,
) -> Result<(), AllocError> {
    if let Some(place) = known.find(entries, depth) {
        places.try_push(place)?;
        return Ok(());
    }
    steps.try_push(Step::Keep(entries, depth))?;
    steps.try_push(Step::Node(entries, depth))?;
    Ok(())
}

/// Takes one step. The index for a jump or a split is on top of the saved ones.
pub(crate) fn take_step<'a>(
    out: &mut Vec<u16>,
    places: &mut Vec<usize>,
    steps: &mut Vec<Step<'a>>,
    known: &mut Known<'a>,
    step: Step<'a>,
) -> Result<(), AllocError> {
    match step {
        Step::Node(entries, depth) => open_node(out, steps, entries, depth)?,
        Step::Save => places.try_push(out.len())?,
        Step::Place(entries, depth) => place_node(places, steps, known, entries, depth)?,
        Step::Keep(entries, depth) => {
            known.add(entries, depth, out.len())?;
            places.try_push(out.len())?;
        }
        Step::Last(unit) => write_last(out, unit)?,
        Step::Value(unit, value) => write_value(out, unit, value)?,
        Step::Run(units, value) => write_run(out, units, value)?,
        Step::Branch(count, value) => write_branch(out, count, value)?,
        Step::Jump(unit) => {
            if let Some(place) = places.pop() {
                write_jump(out, unit, place)?;
            }
        }
        Step::Split(unit) => {
            if let Some(place) = places.pop() {
                write_split(out, unit, place)?;
            }
        }
    }
    Ok(())
}
