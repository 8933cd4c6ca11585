//! What a walk over the entries of a trie has not visited yet.

use crate::icu_char16trie::encoded::{
    delta_end, entry_child, lower_part, run_len, short_end, unit_at,
};
use crate::icu_char16trie::impl_const::{
    MAX_BRANCH_LINEAR_SUB_NODE_LENGTH, MIN_LINEAR_MATCH, VALUE_IS_FINAL,
};
use crate::icu_char16trie::spelling::{Mark, Spelling};
use crate::icu_zerovec::ZeroSlice;
use crate::support::AllocError;
use crate::support::prelude::*;

/// A part of a branch that is postponed.
#[derive(Clone, Copy, Debug)]
pub(crate) struct BranchPart {
    /// Its index.
    pub place: usize,
    /// Its number of entries.
    pub count: usize,
    /// The key before the units of its entries.
    pub mark: Mark,
}

/// What is still to be visited: a node, and after it the postponed parts.
#[derive(Debug, Clone)]
pub(crate) struct Pending<'a> {
    pub units: ZeroSlice<'a, u16>,
    /// The key of the node.
    pub spelling: Spelling,
    /// The index of the node, if there is one.
    pub node: Option<usize>,
    /// The postponed parts, the next one last.
    pub parts: Vec<BranchPart>,
}

impl<'a> Pending<'a> {
    /// Postpones a part, under the key so far.
    #[inline(always)]
    fn put_off(&mut self, place: usize, count: usize) -> Result<(), AllocError> {
        let mark = self.spelling.mark();
        self.parts.try_push(BranchPart { place, count, mark })?;
        Ok(())
    }

    /// Moves to the first node of a row of at most five entries, and postpones the rest.
    #[inline(always)]
    fn enter_row(&mut self, place: usize, count: usize) -> Result<(), AllocError> {
        let Some(unit) = unit_at(self.units, place) else {
            return Ok(());
        };
        let mut child = place + 1;
        if count > 1 {
            let Some(value) = unit_at(self.units, place + 1) else {
                return Ok(());
            };
            let Some(first) = entry_child(self.units, place + 2, value) else {
                return Ok(());
            };
            self.put_off(short_end(place + 2, value % VALUE_IS_FINAL), count - 1)?;
            child = first;
        }
        self.spelling.try_push(unit)?;
        self.node = Some(child);
        Ok(())
    }

    /// Moves to the first node of a part, and postpones the rest. The recursion is at most 16 deep.
    fn split_part(&mut self, place: usize, count: usize) -> Result<(), AllocError> {
        if count <= MAX_BRANCH_LINEAR_SUB_NODE_LENGTH {
            self.enter_row(place, count)?;
            return Ok(());
        }
        let Some(_split) = unit_at(self.units, place) else {
            return Ok(());
        };
        let Some(delta) = unit_at(self.units, place + 1) else {
            return Ok(());
        };
        let Some(low) = lower_part(self.units, place + 2, delta) else {
            return Ok(());
        };
        let half = count / 2;
        self.put_off(delta_end(place + 2, delta), count - half)?;
        self.split_part(low, half)?;
        Ok(())
    }

    /// Moves to the first node of a part, and postpones the rest. Most parts are rows.
    // rustc calls it, which takes longer than a step.
    #[inline(always)]
    fn enter_part(&mut self, place: usize, count: usize) -> Result<(), AllocError> {
        if count <= MAX_BRANCH_LINEAR_SUB_NODE_LENGTH {
            self.enter_row(place, count)?;
            return Ok(());
        }
        self.split_part(place, count)?;
        Ok(())
    }

    /// Moves to the node after a linear match.
    #[inline(always)]
    pub(crate) fn pass_run(&mut self, place: usize, count: usize) -> Result<(), AllocError> {
        if self.units.len() < place + count {
            return Ok(());
        }
        self.spelling.push_run(self.units, place, count)?;
        self.node = Some(place + count);
        Ok(())
    }

    /// Moves to the first node after a match node. `low` is the low six bits of its lead unit, and
    /// `place` is the index after the lead and its value.
    #[inline(always)]
    pub(crate) fn open_match(&mut self, place: usize, low: u16) -> Result<(), AllocError> {
        if low >= MIN_LINEAR_MATCH {
            self.pass_run(place, run_len(low))?;
            return Ok(());
        }
        if low > 0 {
            self.enter_part(place, low as usize + 1)?;
            return Ok(());
        }
        let Some(length) = unit_at(self.units, place) else {
            return Ok(());
        };
        self.enter_part(place + 1, length as usize + 1)?;
        Ok(())
    }

    /// Moves to the next node: the current one, or else the first node of the next part. Returns
    /// false if nothing was left. In a trie every part leads to a node.
    #[inline]
    pub(crate) fn go_to_node(&mut self) -> Result<bool, AllocError> {
        if self.node.is_some() {
            return Ok(true);
        }
        let Some(part) = self.parts.pop() else {
            return Ok(false);
        };
        self.spelling.cut_to(part.mark);
        self.enter_part(part.place, part.count)?;
        Ok(true)
    }
}
