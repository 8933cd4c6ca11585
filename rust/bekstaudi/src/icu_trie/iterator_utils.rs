//! Iterators over ranges with values.

use crate::icu_trie_core::range::CodePointMapRange;
use crate::support::prelude::*;
use core::iter::Fuse;

/// An iterator over ranges with values that joins adjacent ranges with equal values.
///
/// A range is joined to the one before it if it starts right after the last code point of that one
/// and has an equal value. A joined range has the value of its first range, and each further value
/// is compared with that one. Nothing is joined to a range that ends at `u32::MAX`. Ranges that are
/// not adjacent, or that overlap, stay as they are.
///
/// Over (0..=3, 1), (4..=6, 1), (8..=9, 1) it gives (0..=6, 1), (8..=9, 1).
#[derive(Debug, Clone)]
#[must_use = "iterators are lazy and do nothing unless consumed"]
pub struct RangeListIteratorCoalescer<I, U> {
    iter: Fuse<I>,
    peek: Option<CodePointMapRange<U>>,
}

impl<I: Iterator<Item = CodePointMapRange<U>>, U: Eq> RangeListIteratorCoalescer<I, U> {
    /// Joins the ranges of `iter`. Once `iter` has returned `None`, it is not called again.
    #[inline]
    pub fn new(iter: I) -> Self {
        Self {
            iter: iter.fuse(),
            peek: None,
        }
    }
}

/// Returns true if `next` starts right after `range` and has an equal value.
#[inline]
fn is_continued<U: Eq>(range: &CodePointMapRange<U>, next: &CodePointMapRange<U>) -> bool {
    let last = *range.range.end();
    last < u32::MAX && *next.range.start() == last + 1 && next.value == range.value
}

impl<I: Iterator<Item = CodePointMapRange<U>>, U: Eq> Iterator
    for RangeListIteratorCoalescer<I, U>
{
    type Item = CodePointMapRange<U>;

    fn next(&mut self) -> Option<CodePointMapRange<U>> {
        let mut range = match self.peek.take() {
            Some(range) => range,
            None => self.iter.next()?,
        };
        while let Some(next) = self.iter.next() {
            if is_continued(&range, &next) {
                range.range = *range.range.start()..=*next.range.end();
            } else {
                self.peek = Some(next);
                return Some(range);
            }
        }
        Some(range)
    }

    /// All ranges may be joined to one.
    #[inline]
    fn size_hint(&self) -> (usize, Option<usize>) {
        let (least, most) = self.iter.size_hint();
        let peeked = usize::from(self.peek.is_some());
        (
            peeked.max(least.min(1)),
            most.and_then(|it| it.checked_add(peeked)),
        )
    }
}
