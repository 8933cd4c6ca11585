//! Frozen sets of code points, for many look-ups: a bit for each code point.

use crate::icu_frozen_sets::ascii::ascii_of;
use crate::icu_frozen_sets::view::{
    FrozenView, bit_from, bmp_offsets, contains_by, first_words, last_offset,
};
use crate::icu_frozen_sets::words::frozen_words;
use crate::icu_invlist::codepointinvlist::CodePointInversionList;
use crate::icu_utf::places::{number_of_four, place_of_three, place_of_two};
use crate::icu_zerovec::MemoryError;
use crate::icu_zerovec::ule::AsULE;
use crate::support::prelude::*;

/// A set of code points for many look-ups, each of which reads an offset and a word and searches
/// nothing (ICU: a frozen UnicodeSet).
///
/// It stores the set and, in 64-bit words, a bit for each code point, in blocks of 1,024. The words
/// take 8 bytes for each block up to that of the last boundary below 0x110000, at most 392 bytes more,
/// and 128 bytes for each range, up to 60 ranges and not more than such blocks. If more blocks than that
/// are neither empty nor full, they take at most 256 bytes for each such block.
///
/// ```
/// use bekstaudi::codepointinvlist::{CodePointInversionList, FrozenCodePointSet};
///
/// let set = CodePointInversionList::try_from('a'..='z')?;
/// let letters = FrozenCodePointSet::freeze(&set);
/// assert!(letters.contains('a') && !letters.contains('A'));
/// assert_eq!(letters.span("word!", true), 4);
/// assert_eq!(letters.as_set(), &set);
/// # Ok::<(), Box<dyn std::error::Error>>(())
/// ```
#[derive(Debug)]
pub struct FrozenCodePointSet {
    set: CodePointInversionList<'static>,
    /// For each ASCII character, whether the set contains it. Repeats the bits so that a look-up
    /// takes one load.
    ascii: [bool; 128],
    /// The bits of the code points below 0x800, which have at most two bytes in UTF-8: one word for
    /// each lead byte. Repeats the bits so that a look-up in a text takes one load.
    two_bytes: [u64; 32],
    /// The offsets of the 64 blocks of the Basic Multilingual Plane. Repeats them so that a look-up
    /// does not compare the block with the last offset's.
    bmp_offsets: [u32; 64],
    /// The offsets of the blocks, and then the words of the blocks.
    words: Vec<u64>,
    /// The index of the last offset.
    last: usize,
}

/// Constructors and copies.
impl FrozenCodePointSet {
    /// Returns a frozen set with the code points of `set` (ICU: `UnicodeSet::freeze`). It has its
    /// own copy of the boundaries, and `set` is unchanged.
    ///
    /// # Errors
    /// Returns `MemoryError` if an allocation fails.
    #[inline]
    pub fn try_freeze(set: &CodePointInversionList<'_>) -> Result<FrozenCodePointSet, MemoryError> {
        let words = frozen_words(set.as_inversion_list())?;
        Ok(FrozenCodePointSet {
            set: set.try_clone()?,
            ascii: ascii_of(set),
            two_bytes: first_words(&words),
            bmp_offsets: bmp_offsets(&words),
            last: last_offset(&words),
            words,
        })
    }

    /// Returns an equal frozen set. This copies the bits and does not compute them again.
    ///
    /// # Errors
    /// Returns `MemoryError` if an allocation fails.
    #[inline]
    pub fn try_clone(&self) -> Result<FrozenCodePointSet, MemoryError> {
        Ok(FrozenCodePointSet {
            set: self.set.try_clone()?,
            ascii: self.ascii,
            two_bytes: self.two_bytes,
            bmp_offsets: self.bmp_offsets,
            words: Vec::from_slice(&self.words)?,
            last: self.last,
        })
    }
}

/// Queries.
impl FrozenCodePointSet {
    /// Returns a reference to the set that was frozen, with its boundaries.
    #[must_use]
    #[inline]
    pub const fn as_set(&self) -> &CodePointInversionList<'static> {
        &self.set
    }

    /// Returns the words of the frozen set, for example to write them to a file. [`FrozenView`] says
    /// what is in them.
    ///
    /// A small set takes few words: one for each block of 1,024 code points up to that of the last
    /// boundary below 0x110000, at most 49 more, and sixteen for each block but the first that is
    /// neither empty nor full. White_Space takes 110 words.
    ///
    /// [`FrozenView::new`] makes them a frozen set again, without a copy.
    ///
    /// ```
    /// use bekstaudi::codepointinvlist::{FrozenCodePointSet, FrozenView};
    ///
    /// let letters = FrozenCodePointSet::freeze(&('A'..='Z').collect());
    /// let words = letters.as_words();
    /// let view = FrozenView::new(words);
    /// assert!(view.contains('A') && !view.contains('a'));
    /// ```
    #[must_use]
    #[inline]
    pub fn as_words(&self) -> &[u64] {
        &self.words
    }

    /// Returns a view of the words of the frozen set.
    #[inline(always)]
    #[must_use]
    pub fn as_view(&self) -> FrozenView<'_> {
        FrozenView::new(&self.words)
    }

    /// Returns true if the set contains the code point `c`. Returns false for any number above
    /// 0x10FFFF.
    #[inline(always)]
    #[must_use]
    pub fn contains32(&self, c: u32) -> bool {
        if c < 0x10000 {
            return self.contains_bmp(c / 64, c % 64);
        }
        contains_by(&self.words, self.last, c)
    }

    /// Returns true if the set contains the character `c`.
    #[inline(always)]
    #[must_use]
    pub fn contains(&self, c: char) -> bool {
        self.contains32(u32::from(c))
    }
}

/// Spans of text.
impl FrozenCodePointSet {
    /// Returns true if the set contains the code point `64 * word + place`, which is below 0x800.
    /// In UTF-8 of two bytes, `word` comes from the lead byte and `place` from the trail byte.
    #[inline(always)]
    fn contains_short(&self, word: u32, place: u32) -> bool {
        let bits = self.two_bytes[word as usize];
        (bits >> place) & 1 == 1
    }

    /// Returns true if the set contains the code point `64 * upper + lower`, which is below 0x10000.
    #[inline(always)]
    fn contains_bmp(&self, upper: u32, lower: u32) -> bool {
        // The remainder is the block itself. It shows rustc that the index is in bounds.
        let place = self.bmp_offsets[(upper / 16 % 64) as usize];
        bit_from(&self.words, place as usize, upper, lower)
    }

    /// Returns whether the set contains the first character of the bytes, and its length in bytes.
    #[inline(always)]
    fn ask_first(&self, bytes: &[u8]) -> (bool, usize) {
        let lead = bytes[0];
        if lead < 0x80 {
            return (self.ascii[lead as usize], 1);
        }
        if lead < 0xE0 {
            let (upper, lower) = place_of_two(bytes);
            return (self.contains_short(upper, lower), 2);
        }
        if lead < 0xF0 {
            let (upper, lower) = place_of_three(bytes);
            return (self.contains_bmp(upper, lower), 3);
        }
        (self.contains32(number_of_four(bytes)), 4)
    }

    /// Returns whether the set contains the character that starts at offset `start`, and the offset
    /// of its end.
    #[inline(always)]
    fn ask_character(&self, bytes: &[u8], start: usize) -> (bool, usize) {
        let (is_held, len) = self.ask_first(&bytes[start..]);
        (is_held, start + len)
    }

    /// Returns the offset of the first byte from `start` on that is not ASCII, or whose membership
    /// in the set is not `held`, or of the end of the text.
    #[inline(always)]
    fn past_ascii(&self, text: &str, start: usize, held: bool) -> usize {
        let bytes = text.as_bytes();
        let mut end = start;
        while end < bytes.len() {
            let byte = bytes[end];
            if byte >= 0x80 {
                return end;
            }
            if self.ascii[byte as usize] != held {
                return end;
            }
            end += 1;
        }
        end
    }

    /// Returns the length in bytes of the longest prefix of `text` whose characters are all in the
    /// set, or all outside it if `held` is false (ICU: `UnicodeSet::spanUTF8`).
    ///
    /// The result is a character boundary, so `&text[set.span(text, true)..]` is the rest of the
    /// text.
    #[inline(never)]
    #[must_use]
    pub fn span(&self, text: &str, held: bool) -> usize {
        let bytes = text.as_bytes();
        let mut passed = 0;
        loop {
            let start = self.past_ascii(text, passed, held);
            if start >= bytes.len() {
                return start;
            }
            let (is_held, end) = self.ask_character(bytes, start);
            if is_held != held {
                return start;
            }
            passed = end;
        }
    }

    /// Returns the byte offset at which the longest suffix starts whose characters are all in the
    /// set, or all outside it if `held` is false (ICU: `UnicodeSet::spanBackUTF8`).
    ///
    /// The result is a character boundary, so `&text[..set.span_back(text, true)]` is the text
    /// before that suffix.
    #[must_use]
    #[inline]
    pub fn span_back(&self, text: &str, held: bool) -> usize {
        let mut start = text.len();
        for c in text.chars().rev() {
            if self.contains(c) != held {
                return start;
            }
            start -= c.len_utf8();
        }
        start
    }
}

/// Compares the sets, because the set determines the bits.
impl PartialEq for FrozenCodePointSet {
    #[inline]
    fn eq(&self, other: &Self) -> bool {
        self.set == other.set
    }
}

impl Eq for FrozenCodePointSet {}
