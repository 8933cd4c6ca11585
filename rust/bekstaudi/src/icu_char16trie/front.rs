//! What comes next in a walk over the entries of a trie.

use crate::icu_char16trie::encoded::{node_end, unit_at};
use crate::icu_char16trie::impl_const::{MIN_VALUE_LEAD, VALUE_IS_FINAL};
use crate::icu_char16trie::pending::Pending;
use crate::icu_char16trie::place::Place;
use crate::icu_char16trie::step::value_by;
use crate::support::AllocError;
use crate::support::prelude::*;

/// What comes next, under the key that is spelled so far.
#[derive(Clone, Copy, Debug)]
pub(crate) enum Front {
    /// The node or linear match at this position.
    At(Place),
    /// A match node: the index after its lead and its value, and the low six bits of the lead.
    Match(usize, u16),
}

/// Returns what comes after the value of a node whose lead unit is before `place`.
#[inline(always)]
pub(crate) fn below(place: usize, lead: u16) -> Front {
    if lead >= VALUE_IS_FINAL {
        Front::At(Place::Nowhere)
    } else {
        Front::Match(node_end(place, lead), lead % MIN_VALUE_LEAD)
    }
}

impl<'a> Pending<'a> {
    /// Moves to the first node of `front`, and leaves the current node.
    #[inline(always)]
    pub(crate) fn open_front(&mut self, front: Front) -> Result<(), AllocError> {
        self.node = None;
        match front {
            Front::At(Place::Nowhere) => {}
            Front::At(Place::Node(place)) => self.node = Some(place),
            Front::At(Place::Run(place, left)) => self.pass_run(place, usize::from(left) + 1)?,
            Front::Match(place, low) => self.open_match(place, low)?,
        }
        Ok(())
    }

    /// Leaves the current node and returns what comes after its value, and the value if it has one.
    #[inline(always)]
    pub(crate) fn read_node(&mut self) -> (Front, Option<i32>) {
        let Some(place) = self.node.take() else {
            return (Front::At(Place::Nowhere), None);
        };
        let Some(lead) = unit_at(self.units, place) else {
            return (Front::At(Place::Nowhere), None);
        };
        let value = value_by(self.units, place + 1, lead);
        (below(place + 1, lead), value)
    }
}
