//! Frozen sets of code points, and of code points and strings, like ICU's frozen UnicodeSet.
//!
//! - `frozen`: [`FrozenCodePointSet`](frozen::FrozenCodePointSet) and its queries
//! - `spans`: [`Spans`](spans::Spans), an iterator over the pieces of a text that are in the set
//!   and those that are not
//! - `ranges`: whether a frozen set contains a range
//! - `bytes`: spans of bytes that may not be valid UTF-8
//! - `lossy_spans`: the same if an ill-formed sequence counts as U+FFFD
//! - `text_sets`: [`FrozenCodePointSetAndStrings`](text_sets::FrozenCodePointSetAndStrings), a
//!   frozen set with strings
//! - `view`: [`FrozenView`](view::FrozenView), a frozen set in borrowed words: look-ups and spans
//! - `boundary_spans`: spans by the boundaries of a set, without a frozen set
//! - `longest_span`: the loops of these spans; `span_condition`: what they test characters for
//! - `same_length`: tests the characters of a short span
//! - `two_byte`, `ascii_blocks`, `three_byte`: test those of a long span, by the length of their bytes
//! - `ascii`: which ASCII characters a set contains
//! - `words`: [`frozen_words`](words::frozen_words), the words of a frozen set from boundaries
//! - `filling`: fills these words, range by range; `bits`: writes the offset and the words of a block

use crate::support::prelude::*;
mod ascii;
mod ascii_blocks;
mod bits;
pub mod boundary_spans;
mod bytes;
mod filling;
pub mod frozen;
mod longest_span;
mod lossy_spans;
mod ranges;
mod same_length;
mod span_condition;
pub mod spans;
pub mod text_sets;
mod three_byte;
mod two_byte;
pub mod view;
pub mod words;
