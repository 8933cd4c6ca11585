//! A range of code points that have the same value.
use crate::support::prelude::*;
use core::ops::RangeInclusive;

/// A range of code points and the value that each of them has in a trie.
#[derive(Clone, Debug, PartialEq, Eq, Hash)]
pub struct CodePointMapRange<T> {
    /// The code points, both bounds inclusive, such as `0x41..=0x5A`. Ranges that a trie returns
    /// are never empty.
    pub range: RangeInclusive<u32>,
    /// The value of these code points.
    pub value: T,
}
