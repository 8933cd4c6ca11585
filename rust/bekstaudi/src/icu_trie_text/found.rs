//! A character in a text, with its value.

use crate::support::prelude::*;
/// A character of a text, with its byte offset and its value in a trie.
#[derive(Clone, Copy, Debug, PartialEq, Eq, Hash)]
pub struct Found<T> {
    /// The byte offset at which it starts.
    pub offset: usize,
    /// The character itself.
    pub character: char,
    /// Its value.
    pub value: T,
}
