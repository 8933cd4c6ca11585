//! All keys that a text starts with.

use crate::icu_char16trie::cursor::Char16TrieCursor;
use crate::support::prelude::*;

/// An iterator over the keys that a text starts with, the shortest first: the length of each in
/// units and its value.
///
/// Created by [`Char16Trie::matches`](crate::icu_char16trie::trie::Char16Trie::matches). After the last item it
/// keeps returning `None`. If the units are not a trie, the items are what the steps lead to. The
/// iterator ends on all units.
#[derive(Debug, Clone)]
#[must_use = "iterators are lazy and do nothing unless consumed"]
pub struct Matches<'a> {
    cursor: Char16TrieCursor<'a>,
    text: &'a [u16],
    /// The number of units that the cursor has passed, if that prefix has not been reported yet.
    length: Option<usize>,
}

impl<'a> Matches<'a> {
    /// Creates an iterator over the matches of `text`. The cursor is at the root.
    #[inline]
    pub(crate) fn new(cursor: Char16TrieCursor<'a>, text: &'a [u16]) -> Self {
        Matches {
            cursor,
            text,
            length: Some(0),
        }
    }

    /// Advances from the prefix of `length` units to the next one, if a key may be there.
    #[inline(always)]
    fn go_on(&mut self, length: usize) {
        let text = self.text;
        if length < text.len() && !self.cursor.is_empty() {
            self.cursor.step16(text[length]);
            self.length = Some(length + 1);
        } else {
            self.length = None;
        }
    }
}

impl<'a> Iterator for Matches<'a> {
    type Item = (usize, i32);

    #[inline]
    fn next(&mut self) -> Option<(usize, i32)> {
        while let Some(length) = self.length {
            let value = self.cursor.value();
            self.go_on(length);
            if let Some(value) = value {
                return Some((length, value));
            }
        }
        None
    }

    /// Each prefix that has not been reported may be a key.
    #[inline]
    fn size_hint(&self) -> (usize, Option<usize>) {
        (
            0,
            Some(self.length.map_or(0, |it| self.text.len() - it + 1)),
        )
    }
}
