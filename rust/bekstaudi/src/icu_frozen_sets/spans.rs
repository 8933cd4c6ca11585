//! An iterator over the pieces of a text that are in a frozen set and those that are not.

use crate::icu_frozen_sets::frozen::FrozenCodePointSet;
use crate::support::prelude::*;

/// A piece of a text whose characters are all in a set, or all outside it.
#[derive(Clone, Copy, Debug, PartialEq, Eq, Hash)]
pub struct Span<'t> {
    /// The piece, which is not empty.
    pub text: &'t str,
    /// Whether the set contains its characters.
    pub is_held: bool,
}

/// An iterator over the spans of a text, from its start to its end.
/// [`spans`](crate::icu_frozen_sets::frozen::FrozenCodePointSet::spans) returns it.
#[derive(Debug, Clone)]
#[must_use = "iterators are lazy and do nothing unless consumed"]
pub struct Spans<'s, 't> {
    set: &'s FrozenCodePointSet,
    rest: &'t str,
}

/// Returns the first span of a text and the rest of the text, or `None` if the text is empty.
#[inline]
fn first_span<'t>(set: &FrozenCodePointSet, text: &'t str) -> Option<(Span<'t>, &'t str)> {
    let first = text.chars().next()?;
    let is_held = set.contains(first);
    let end = set.span(text, is_held);
    let span = Span {
        text: &text[..end],
        is_held,
    };
    Some((span, &text[end..]))
}

impl<'s, 't> Iterator for Spans<'s, 't> {
    type Item = Span<'t>;

    #[inline]
    fn next(&mut self) -> Option<Span<'t>> {
        let (span, rest) = first_span(self.set, self.rest)?;
        self.rest = rest;
        Some(span)
    }

    /// A span is one character or more.
    #[inline]
    fn size_hint(&self) -> (usize, Option<usize>) {
        let (least, most) = self.rest.chars().size_hint();
        (least.min(1), most)
    }
}

/// Cutting a text into spans.
impl FrozenCodePointSet {
    /// Returns an iterator over the spans of `text`, from its start to its end: its longest pieces
    /// whose characters are all in the set, and all outside it, in turn.
    ///
    /// Joined, the spans are the text. None is empty, and each is a slice of `text`, so nothing is
    /// allocated.
    ///
    /// ```
    /// use bekstaudi::codepointinvlist::FrozenCodePointSet;
    ///
    /// let letters = FrozenCodePointSet::freeze(&('a'..='z').collect());
    /// let spans: Vec<_> = letters.spans("ab, c").map(|it| (it.text, it.is_held)).collect();
    /// assert_eq!(spans, [("ab", true), (", ", false), ("c", true)]);
    /// ```
    #[inline]
    pub const fn spans<'s, 't>(&'s self, text: &'t str) -> Spans<'s, 't> {
        Spans {
            set: self,
            rest: text,
        }
    }
}
