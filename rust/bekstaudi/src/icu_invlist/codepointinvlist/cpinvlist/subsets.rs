//! The subset test.

use super::CodePointInversionList;
use crate::support::prelude::*;

impl<'data> CodePointInversionList<'data> {
    /// Returns true if all boundaries of `other` are between the first and the last boundary of
    /// this set. Both sets must contain code points.
    #[inline]
    fn spans(&self, other: &CodePointInversionList<'_>) -> bool {
        let count = self.count();
        let others = other.count();
        self.end_at(0) <= other.end_at(0) && other.end_at(others - 1) <= self.end_at(count - 1)
    }

    /// Returns true if `other` is a subset of this set. Both sets must contain code points.
    pub(super) fn holds_some(&self, other: &CodePointInversionList<'_>) -> bool {
        if !self.spans(other) {
            return false;
        }
        if other.ends.as_bytes().len() < self.ends.as_bytes().len() / 16 {
            self.holds_each(other)
        } else {
            self.holds_in_order(other)
        }
    }

    /// Returns true if `other` is a subset of this set. Searches for each range of `other` from the
    /// start; for an `other` with few ranges.
    #[inline]
    fn holds_each(&self, other: &CodePointInversionList<'_>) -> bool {
        let mut i = 0;
        let count = other.count();
        while i < count {
            let found = self.place_of(other.end_at(i));
            if !self.reaches(found, other.end_at(i + 1)) {
                return false;
            }
            i += 2;
        }
        true
    }

    /// Returns true if `other` is a subset of this set. Searches for each range of `other` from the
    /// previous one on; for an `other` with many ranges.
    #[inline]
    fn holds_in_order(&self, other: &CodePointInversionList<'_>) -> bool {
        let mut place = 0;
        let mut i = 0;
        let count = other.count();
        while i < count {
            place = self.place_from(place, other.end_at(i));
            if !self.reaches(place, other.end_at(i + 1)) {
                return false;
            }
            i += 2;
        }
        true
    }
}
