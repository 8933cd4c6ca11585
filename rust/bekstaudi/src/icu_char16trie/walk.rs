//! How a listing walks from one entry of a trie to the next.

use crate::icu_char16trie::front::Front;
use crate::icu_char16trie::pending::Pending;
use crate::icu_char16trie::place::Place;
use crate::icu_char16trie::spelling::Spelling;
use crate::icu_zerovec::{MemoryError, ZeroSlice};
use crate::support::AllocError;
use crate::support::prelude::*;

/// A walk over the entries of a trie: the entry that it reached last, and what is still to come.
#[derive(Debug, Clone)]
pub(crate) struct Walk<'a> {
    /// The key of the entry as it is spelled, and the postponed parts.
    pub pending: Pending<'a>,
    /// What comes next under that key, before the parts.
    pub front: Front,
    /// The value of the entry.
    pub value: i32,
    /// The text of the key, if it ends in a lead surrogate.
    pub ended: String,
}

impl<'a> Walk<'a> {
    /// Creates the walk over the entries from a position.
    pub(crate) fn new(units: ZeroSlice<'a, u16>, place: Place) -> Self {
        let pending = Pending {
            units,
            spelling: Spelling::new(),
            node: None,
            parts: Vec::new(),
        };
        Walk {
            pending,
            front: Front::At(place),
            value: 0,
            ended: String::new(),
        }
    }

    /// Returns the text of the key.
    #[inline]
    pub(crate) fn text(&self) -> &str {
        match self.pending.spelling.held {
            None => &self.pending.spelling.text,
            Some(_lead) => &self.ended,
        }
    }

    /// If the key ends in a lead surrogate, writes its text with U+FFFD instead.
    #[inline(always)]
    fn end_key(&mut self) -> Result<(), AllocError> {
        let Some(_lead) = self.pending.spelling.held else {
            return Ok(());
        };
        self.ended.clear();
        self.ended.try_push_str(&self.pending.spelling.text)?;
        self.ended.try_push(char::REPLACEMENT_CHARACTER)?;
        Ok(())
    }

    /// Moves to the next entry and returns true, or returns false if there is none. Reads at most
    /// as many nodes as there are units: in a trie a node without a value leads to a later node.
    fn find_entry(&mut self) -> Result<bool, AllocError> {
        let front = self.front;
        self.pending.open_front(front)?;
        for _opened in 0..self.pending.units.len() {
            if !self.pending.go_to_node()? {
                return Ok(false);
            }
            let (front, value) = self.pending.read_node();
            if let Some(value) = value {
                self.front = front;
                self.value = value;
                self.end_key()?;
                return Ok(true);
            }
            self.pending.open_front(front)?;
        }
        Ok(false)
    }

    /// Ends the walk: nothing is left, the text is empty and the value is 0.
    #[inline]
    fn end(&mut self) {
        self.pending.parts.clear();
        self.pending.spelling.text.clear();
        self.pending.spelling.held = None;
        self.front = Front::At(Place::Nowhere);
        self.value = 0;
    }

    /// Moves to the next entry and returns true. In all other cases nothing is left.
    #[inline]
    pub(crate) fn next_entry(&mut self) -> Result<bool, MemoryError> {
        match self.find_entry() {
            Ok(true) => Ok(true),
            Ok(false) => {
                self.end();
                Ok(false)
            }
            Err(_refused) => {
                self.end();
                Err(MemoryError)
            }
        }
    }

    /// Moves to the next entry and returns it, with a text of its own.
    ///
    /// After an `Err` nothing is left.
    // rustc calls it, which takes longer than a step.
    #[inline(always)]
    pub(crate) fn next_item(&mut self) -> Option<Result<(String, i32), MemoryError>> {
        let units = self.pending.units;
        match self.next_entry() {
            Ok(true) => {}
            Ok(false) => return None,
            Err(error) => {
                self.pending.units = units;
                return Some(Err(error));
            }
        }
        let Ok(text) = String::from_str(self.text()) else {
            self.end();
            return Some(Err(MemoryError));
        };
        Some(Ok((text, self.value)))
    }
}
