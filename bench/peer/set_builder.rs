//! The builder of sets of code points: a list of boundaries that grows and shrinks in place.
use crate::sets::{Cell, Set, number, set};
use crate::slice;
use std::cmp::Ordering;

/// One above the last code point.
const LIMIT: u32 = 0x11_0000;

#[derive(Default)]
pub struct Builder {
    ends: Vec<u32>,
}

impl Builder {
    /// Adds or removes the range, by a search for each of its two boundaries.
    fn change(&mut self, start: u32, end: u32, add: bool) {
        if start >= end || end > LIMIT {
            return;
        }
        let found_start = self.ends.binary_search(&start);
        let found_end = self.ends.binary_search(&end);
        let mut first = found_start.unwrap_or_else(|place| place);
        let mut last = found_end.unwrap_or_else(|place| place);
        let start_changes = (first % 2 == 0) == add;
        let end_changes = (last % 2 == 0) == add;
        if first == last && start_changes && found_end.is_err() {
            self.ends.splice(first..last, [start, end]);
            return;
        }
        if start_changes {
            self.ends[first] = start;
            first += 1;
        }
        if end_changes {
            if found_end.is_ok() {
                last += 1;
            } else {
                last -= 1;
                self.ends[last] = end;
            }
        }
        if first < last {
            self.ends.drain(first..last);
        }
    }

    pub fn add_range(&mut self, start: u32, end: u32) {
        if start >= end || end > LIMIT {
            return;
        }
        if self.ends.is_empty() {
            self.ends.extend_from_slice(&[start, end]);
        } else {
            self.change(start, end, true);
        }
    }

    fn remove_range(&mut self, start: u32, end: u32) {
        let (Some(first), Some(last)) = (self.ends.first(), self.ends.last()) else {
            return;
        };
        if start < end && start <= *first && end >= *last {
            self.ends.clear();
        } else {
            self.change(start, end, false);
        }
    }

    fn add_set(&mut self, set: &Set<&[Cell]>) {
        set.ranges().for_each(|(start, end)| self.add_range(start, end));
    }

    fn remove_set(&mut self, set: &Set<&[Cell]>) {
        set.ranges().for_each(|(start, end)| self.remove_range(start, end));
    }

    fn retain_set(&mut self, set: &Set<&[Cell]>) {
        let mut before = 0;
        for (start, end) in set.ranges() {
            self.remove_range(before, start);
            before = end;
        }
        self.remove_range(before, LIMIT);
    }

    /// Makes the list of the boundaries that are in exactly one of the two lists.
    fn complement_set(&mut self, set: &Set<&[Cell]>) {
        let (ours, theirs) = (&self.ends, set.ends());
        let mut ends = vec![];
        let (mut i, mut j) = (0, 0);
        while i < ours.len() && j < theirs.len() {
            let (a, b) = (ours[i], number(&theirs[j]));
            let order = a.cmp(&b);
            match order {
                Ordering::Less => ends.push(a),
                Ordering::Greater => ends.push(b),
                Ordering::Equal => {}
            }
            i += (order != Ordering::Greater) as usize;
            j += (order != Ordering::Less) as usize;
        }
        ends.extend_from_slice(&ours[i..]);
        ends.extend(theirs[j..].iter().map(number));
        self.ends = ends;
    }

    /// Returns the set, with its boundaries packed.
    pub fn build(self) -> Set<Vec<Cell>> {
        Set::of_cells(
            self.ends
                .into_iter()
                .map(|end| [end as u8, (end >> 8) as u8, (end >> 16) as u8])
                .collect(),
        )
    }
}

/// Builds the same set in each turn. Mixes the ranges of the first, and adds the number of ranges
/// of each.
fn built(turns: usize, turn: impl Fn() -> Set<Vec<Cell>>) -> u64 {
    let mut sum = 0;
    for nth in 0..turns {
        let set = turn();
        if nth == 0 {
            sum = set.mixed();
        }
        sum = sum.wrapping_add(set.ranges().len() as u64);
    }
    sum
}

/// The first set after adding (0), removing (1), retaining (2) or complementing (3) the second.
#[unsafe(no_mangle)]
unsafe extern "C" fn rust_blend(
    a: *const u8,
    a_len: usize,
    b: *const u8,
    b_len: usize,
    how: u32,
    turns: usize,
) -> u64 {
    let (a, b) = unsafe { (set(a, a_len), set(b, b_len)) };
    built(turns, || {
        let mut builder = Builder::default();
        builder.add_set(&a);
        match how {
            0 => builder.add_set(&b),
            1 => builder.remove_set(&b),
            2 => builder.retain_set(&b),
            _ => builder.complement_set(&b),
        }
        builder.build()
    })
}

#[unsafe(no_mangle)]
unsafe extern "C" fn rust_set_ranges(
    starts: *const u32,
    count: usize,
    ends: *const u32,
    len: usize,
    turns: usize,
) -> u64 {
    let (starts, ends) = unsafe { (slice(starts, count), slice(ends, len)) };
    built(turns, || {
        let mut builder = Builder::default();
        starts.iter().zip(ends).for_each(|(start, end)| builder.add_range(*start, *end));
        builder.build()
    })
}
