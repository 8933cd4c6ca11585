//! The code points between two neighbouring boundaries, which are all in a set or all outside it.
//!
//! Most characters of a text are in the same range as the character before them, so spans search
//! only for the others.

use super::CodePointInversionList;
use crate::icu_zerovec::CODE_POINT_LIMIT;
use crate::support::prelude::*;

/// Code points from `start` to before `end`.
#[derive(Clone, Copy)]
pub(super) struct Stretch {
    pub(super) start: u32,
    pub(super) end: u32,
}

impl Stretch {
    /// Returns a stretch without code points.
    #[inline(always)]
    pub(super) fn none() -> Stretch {
        Stretch { start: 0, end: 0 }
    }

    /// Returns true if the stretch has the character `c`.
    #[inline(always)]
    pub(super) fn has(&self, c: char) -> bool {
        let number = u32::from(c);
        self.start <= number && number < self.end
    }
}

impl<'data> CodePointInversionList<'data> {
    /// Returns the code points around the character `c`, up to the next boundaries, if they are in
    /// the set, or outside it if `held` is false. Otherwise returns `None`.
    ///
    /// It is a call, so that loops over characters stay small.
    #[inline(never)]
    pub(super) fn stretch_at(&self, c: char, held: bool) -> Option<Stretch> {
        let place = self.place_of(u32::from(c));
        if (place % 2 == 1) != held {
            return None;
        }
        let start = if place == 0 {
            0
        } else {
            self.end_at(place - 1)
        };
        let end = if place == self.count() {
            CODE_POINT_LIMIT
        } else {
            self.end_at(place)
        };
        Some(Stretch { start, end })
    }
}
