//! Why the parts of a trie are rejected.

use crate::support::prelude::*;
/// The reasons why parts do not form a trie.
#[derive(Clone, Copy, Debug, PartialEq, Eq, Hash)]
#[non_exhaustive]
pub enum CodePointTrieError {
    /// The contents of a file do not form a trie.
    FromDeserialized {
        /// What is wrong with the contents.
        reason: &'static str,
    },
    /// The data are empty, so there is no error value.
    EmptyDataVector,
    /// The index has fewer cells than there are blocks of 64 below the fast limit.
    IndexTooShortForFastAccess,
    /// The fast index names a block of 64 that ends outside the data.
    DataTooShortForFastAccess,
    /// The null value in the header is not the number of any value of the type.
    InvalidNullValue,
}

impl core::fmt::Display for CodePointTrieError {
    #[inline]
    fn fmt(&self, f: &mut core::fmt::Formatter<'_>) -> core::fmt::Result {
        match self {
            CodePointTrieError::FromDeserialized { reason, .. } => write!(f, "Could not construct CodePointTrie from deserialized values: {reason}"),
            CodePointTrieError::EmptyDataVector => f.write_str("CodePointTrie must be constructed from data vector with at least one element"),
            CodePointTrieError::IndexTooShortForFastAccess => f.write_str("CodePointTrie must be constructed from index vector long enough to accommodate fast-path access"),
            CodePointTrieError::DataTooShortForFastAccess => f.write_str("CodePointTrie must be constructed from data vector long enough to accommodate fast-path access"),
            CodePointTrieError::InvalidNullValue => f.write_str("The null value is not a valid `T`"),
        }
    }
}

impl core::error::Error for CodePointTrieError {}
