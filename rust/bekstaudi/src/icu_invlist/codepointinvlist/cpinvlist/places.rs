//! Searches for a code point among the boundaries of a set.

use super::CodePointInversionList;
use super::words::last_words;
use crate::support::prelude::*;

impl<'data> CodePointInversionList<'data> {
    /// Returns how many of the next three steps from `low` end at a boundary that is at most `c`.
    /// All boundaries before `low` must be at most `c`.
    #[inline(always)]
    fn steps_up_to(&self, low: usize, step: usize, c: u32) -> usize {
        let [first, second, third] = last_words(self.ends.as_bytes(), low, step);
        let limit = (c + 1) << 8;
        usize::from(first < limit) + usize::from(second < limit) + usize::from(third < limit)
    }

    /// Returns how many boundaries are at most `c`, given that the result is in `low..=low + size`
    /// and `size` is at most 2.
    #[inline(always)]
    fn place_of_two(&self, low: usize, size: usize, c: u32) -> usize {
        if size == 0 {
            return low;
        }
        let first = self.end_at(low) <= c;
        if size == 1 {
            return low + first as usize;
        }
        let second = self.end_at(low + 1) <= c;
        low + first as usize + second as usize
    }

    /// Returns how many boundaries are at most `c`, given that the result is in `low..=low + size`
    /// and `low` is not 0.
    ///
    /// Each round leaves a quarter of the range whatever it reads, so for a constant `size` the
    /// compiler unrolls the loop. It adds up comparisons, so no branch depends on a value read.
    #[inline(always)]
    fn place_between(&self, low: usize, size: usize, c: u32) -> usize {
        let mut low = low;
        let mut size = size;
        while size > 2 {
            let step = (size + 1) / 4;
            low += step * self.steps_up_to(low, step, c);
            size -= 3 * step;
        }
        self.place_of_two(low, size, c)
    }

    /// Returns how many boundaries are at most `c`, for a set with `count` boundaries, which are at
    /// most four. It compares them all.
    #[inline(always)]
    fn place_of_few(&self, count: usize, c: u32) -> usize {
        if count == 0 {
            return 0;
        }
        let first = usize::from(self.end_at(0) <= c) + usize::from(self.end_at(1) <= c);
        if count == 2 {
            return first;
        }
        first + usize::from(self.end_at(2) <= c) + usize::from(self.end_at(3) <= c)
    }

    /// Returns how many boundaries are at most `c`.
    ///
    /// In most texts, most code points are below the first boundary, above the last, or among the
    /// first sixteen. These cases need no search or a short one. A set of at most four boundaries
    /// is searched directly.
    #[inline(always)]
    pub(super) fn place_of(&self, c: u32) -> usize {
        let count = self.count();
        if count <= 4 {
            self.place_of_few(count, c)
        } else if c < self.end_at(0) {
            0
        } else if self.end_at(count - 1) <= c {
            count
        } else if count > 16 && c < self.end_at(16) {
            self.place_between(1, 15, c)
        } else {
            self.place_between(1, count - 2, c)
        }
    }

    /// Returns how many boundaries are at most `c`, given that at least `from` are, and at least
    /// one.
    ///
    /// Doubles its steps until one passes `c`, then searches within the last step.
    #[inline]
    fn place_past(&self, from: usize, c: u32) -> usize {
        let count = self.count();
        let mut low = from;
        let mut size = 4;
        while low + size < count {
            if c < self.end_at(low + size) {
                return self.place_between(low, size, c);
            }
            low += size;
            size *= 2;
        }
        self.place_between(low, count - low, c)
    }

    /// Returns how many boundaries are at most `c`, given that at least `from` are. It is fast if
    /// there are few more than `from`.
    pub(super) fn place_from(&self, from: usize, c: u32) -> usize {
        let count = self.count();
        let near = (from + 4).min(count);
        let mut place = from;
        while place < near {
            if c < self.end_at(place) {
                return place;
            }
            place += 1;
        }
        if place == count {
            return place;
        }
        self.place_past(place, c)
    }

    /// Returns true if the set contains all code points from a start to `end` exclusive. `place` is
    /// the number of boundaries that are at most that start.
    pub(super) fn reaches(&self, place: usize, end: u32) -> bool {
        place % 2 == 1 && end <= self.end_at(place)
    }
}
