//! Positions of a cursor in the units of a trie.

use crate::support::prelude::*;
/// The position of a cursor.
#[derive(Clone, Copy, Debug, PartialEq, Eq)]
pub(crate) enum Place {
    /// Nothing matched.
    Nowhere,
    /// At the node at this index.
    Node(usize),
    /// In a linear match: the index of its next unit, and how many more units follow that one.
    Run(usize, u8),
}

/// The position of a cursor as two numbers, which can be stored or passed on.
///
/// Any two numbers are a valid position. From one that no cursor had, steps lead wherever the units
/// say, and nothing matches if a unit is missing. ICU: `UCharsTrie::State`.
#[derive(Clone, Copy, Debug, PartialEq, Eq, Hash)]
pub struct CursorPlace {
    /// The index of the next unit among the units of the trie.
    pub position: usize,
    /// 0 at a node; in a linear match the number of its units that are left, 1 to 256; above 256 if
    /// nothing matched.
    pub left: u16,
}

/// Returns the two numbers of a position.
#[inline]
pub(crate) fn numbers_of(place: Place) -> CursorPlace {
    match place {
        Place::Nowhere => CursorPlace {
            position: 0,
            left: u16::MAX,
        },
        Place::Node(position) => CursorPlace { position, left: 0 },
        Place::Run(position, left) => CursorPlace {
            position,
            left: u16::from(left) + 1,
        },
    }
}

/// Returns the position of two numbers.
#[inline]
pub(crate) fn place_of(numbers: CursorPlace) -> Place {
    if numbers.position > isize::MAX as usize || numbers.left > 256 {
        return Place::Nowhere;
    }
    match numbers.left.checked_sub(1) {
        None => Place::Node(numbers.position),
        Some(left) => Place::Run(numbers.position, left as u8),
    }
}
