//! Where the bytes of a file differ from those that it should have.

use crate::host::*;
use crate::support::prelude::*;
/// The first difference of two byte strings.
#[derive(Clone, Copy, Debug, PartialEq, Eq)]
pub struct Difference {
    /// How many bytes before it are equal.
    pub offset: usize,
    /// Its line, counted from 1.
    pub line: usize,
}

/// Counts the line feeds.
pub fn line_feeds(bytes: &[u8]) -> usize {
    bytes.iter().filter(|byte| **byte == b'\n').count()
}

/// Returns how many bytes at the start are equal.
fn equal_bytes(found: &[u8], wanted: &[u8]) -> usize {
    let shorter = found.len().min(wanted.len());
    for place in 0..shorter {
        if found[place] != wanted[place] {
            return place;
        }
    }
    shorter
}

/// Returns the first difference of the bytes that a file has from those that are wanted, or `None`
/// if they are equal.
pub fn first_difference(found: &[u8], wanted: &[u8]) -> Option<Difference> {
    if found == wanted {
        return None;
    }
    let offset = equal_bytes(found, wanted);
    Some(Difference {
        offset,
        line: line_feeds(&wanted[..offset]) + 1,
    })
}
