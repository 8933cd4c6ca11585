//! Looks up text that is written to a cursor.

use crate::icu_char16trie::cursor::Char16TrieCursor;
use crate::support::prelude::*;
use core::fmt;

/// Advances the cursor by the UTF-16 units of the written text. Every write returns `Ok`.
impl<'a> fmt::Write for Char16TrieCursor<'a> {
    #[inline]
    fn write_str(&mut self, s: &str) -> fmt::Result {
        for c in s.chars() {
            self.step(c);
        }
        Ok(())
    }
}
