//! The grapheme clusters of a text, what users take for characters: [UAX #29].
//!
//! The classes of characters are one static trie, whose values are an enum. This command, in the folder of
//! this crate, makes it:
//!
//! ```sh
//! U=/usr/share/unicode
//! (cat $U/auxiliary/GraphemeBreakProperty.txt; grep Extended_Pictographic $U/emoji/emoji-data.txt) |
//!     ucptrie build - --width 8 --as rust-static --name breaks -o src/breaks.rs
//! ```
//!
//! [UAX #29]: https://www.unicode.org/reports/tr29/
mod breaks;

use bekstaudi::codepointtrie::text::{ValueIndicesOf, value_indices_of};
use breaks::{BREAKS, Breaks as B};

/// Returns the grapheme clusters of a text.
pub fn graphemes(text: &str) -> Graphemes<'_> {
    let mut classes = value_indices_of(&BREAKS, text);
    let first = classes.next().map(|(_, _, class)| class);
    Graphemes { text, start: 0, first, classes }
}

/// The grapheme clusters of a text, which joined are the text.
pub struct Graphemes<'a> {
    text: &'a str,
    /// The start of the next cluster, and the class of its first character.
    start: usize,
    first: Option<B>,
    /// Index, character and class of the characters after that one.
    classes: ValueIndicesOf<'a, B>,
}

impl<'a> Iterator for Graphemes<'a> {
    type Item = &'a str;

    // Without this another crate calls it, which takes up to 1.7 times as long.
    #[inline]
    fn next(&mut self) -> Option<&'a str> {
        let start = self.start;
        let mut before = Before::new(self.first?);
        for (index, _, class) in self.classes.by_ref() {
            if before.is_boundary(class) {
                (self.start, self.first) = (index, Some(class));
                return Some(&self.text[start..index]);
            }
            before.add(class);
        }
        self.first = None;
        Some(&self.text[start..])
    }
}

/// What the rules need of the characters so far.
struct Before {
    last: B,
    /// They end with a picture and `Extend*`; with that and ZWJ (GB11).
    picture: bool,
    joined: bool,
    /// They end with an odd number of regional indicators (GB12, GB13).
    odd: bool,
}

impl Before {
    fn new(first: B) -> Self {
        let mut before = Before { last: B::Other, picture: false, joined: false, odd: false };
        before.add(first);
        before
    }

    fn add(&mut self, class: B) {
        self.joined = self.picture && class == B::ZWJ;
        self.picture = class == B::ExtendedPictographic || self.picture && class == B::Extend;
        self.odd = class == B::RegionalIndicator && !self.odd;
        self.last = class;
    }

    /// Whether there is a boundary before a character of this class.
    fn is_boundary(&self, next: B) -> bool {
        match (self.last, next) {
            (B::CR, B::LF) => false,                                                        // GB3
            (B::Control | B::CR | B::LF, _) | (_, B::Control | B::CR | B::LF) => true,      // GB4, GB5
            (B::L, B::L | B::V | B::LV | B::LVT) => false,                                  // GB6
            (B::LV | B::V, B::V | B::T) | (B::LVT | B::T, B::T) => false,                   // GB7, GB8
            (_, B::Extend | B::ZWJ | B::SpacingMark) | (B::Prepend, _) => false,            // GB9
            (B::ZWJ, B::ExtendedPictographic) => !self.joined,                              // GB11
            (B::RegionalIndicator, B::RegionalIndicator) => !self.odd,                      // GB12, GB13
            _ => true,                                                                      // GB999
        }
    }
}
