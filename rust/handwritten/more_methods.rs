// Code that rust/make appends to the modules of the library, each below a line `//@ MODULE`. What follows a line
// `//# NAME` is a method of the iterator NAME there.

//@ icu_char16trie/matches
//# Matches
    /// Each prefix that has not been reported may be a key.
    #[inline]
    fn size_hint(&self) -> (usize, Option<usize>) {
        (0, Some(self.length.map_or(0, |it| self.text.len() - it + 1)))
    }

//@ icu_frozen_sets/spans
//# Spans
    /// A span is one character or more.
    #[inline]
    fn size_hint(&self) -> (usize, Option<usize>) {
        let (least, most) = self.rest.chars().size_hint();
        (least.min(1), most)
    }

//@ icu_invlist/codepointinvlist/iter
impl DoubleEndedIterator for IterRanges<'_> {
    #[inline]
    fn next_back(&mut self) -> Option<RangeInclusive<u32>> {
        let (others, range) = self.bytes.split_last_chunk::<6>()?;
        self.bytes = others;
        let start = PotentialCodePoint::from_unaligned(&range[..3])?;
        let end = PotentialCodePoint::from_unaligned(&range[3..6])?;
        Some(RangeInclusive::new(u32::from(start), u32::from(end) - 1))
    }
}

impl IterRangesComplemented<'_> {
    /// Returns true if the last gap ends at the end of the code space. It then has no boundary, so
    /// the number of boundaries that are left is even.
    #[inline]
    fn has_gap_at_end(&self) -> bool {
        let last = self.ends.clone().next_back();
        self.ends.len().is_multiple_of(2) && last.is_none_or(|it| u32::from(it) < CODE_POINT_LIMIT)
    }
}

impl ExactSizeIterator for IterRangesComplemented<'_> {
    #[inline]
    fn len(&self) -> usize {
        match self.start {
            Some(_) => self.ends.len().div_ceil(2) + usize::from(self.has_gap_at_end()),
            None => 0,
        }
    }
}

impl DoubleEndedIterator for IterRangesComplemented<'_> {
    fn next_back(&mut self) -> Option<RangeInclusive<u32>> {
        let first = self.start?;
        let mut end = CODE_POINT_LIMIT;
        if !self.has_gap_at_end() {
            // The last boundary of a set with U+10FFFF ends the set, and is the end of no gap.
            if self.ends.len().is_multiple_of(2) {
                self.ends.next_back()?;
            }
            end = u32::from(self.ends.next_back()?);
        }
        let start = self.ends.next_back().map(u32::from);
        if start.is_none() {
            self.start = None;
        }
        Some(start.unwrap_or(first)..=end - 1)
    }
}

/// Returns the number of characters from `start` to `end` exclusive.
#[inline]
fn count_characters(start: u32, end: u32) -> usize {
    let below = |c: u32| c - c.saturating_sub(0xD800).min(0x800);
    below(end).saturating_sub(below(start)) as usize
}

/// Returns the last character from `start` to `end` exclusive and moves `end` to it. Skips
/// surrogates.
#[inline]
fn take_last(start: u32, end: &mut u32) -> Option<char> {
    if let 0xD801..=0xE000 = *end {
        *end = start.max(0xD800);
    }
    if *end <= start {
        return None;
    }
    *end -= 1;
    char::from_u32(*end)
}

impl DoubleEndedIterator for IterChars<'_> {
    #[inline]
    fn next_back(&mut self) -> Option<char> {
        loop {
            let found = take_last(self.last.0, &mut self.last.1);
            if found.is_some() {
                return found;
            }
            let Some(end) = self.ends.next_back() else {
                return take_last(self.next, &mut self.end);
            };
            let start = self.ends.next_back()?;
            self.last = (u32::from(start), u32::from(end));
        }
    }
}

//# IterRangesComplemented
    #[inline]
    fn size_hint(&self) -> (usize, Option<usize>) {
        (self.len(), Some(self.len()))
    }
//# IterChars
    /// Counts the characters of ranges that have begun, and of the others if there is one.
    fn size_hint(&self) -> (usize, Option<usize>) {
        let begun = count_characters(self.next, self.end) + count_characters(self.last.0, self.last.1);
        let (first, last) = (self.ends.clone().next(), self.ends.clone().next_back());
        let others = match (first, last) {
            (Some(first), Some(last)) => count_characters(u32::from(first), u32::from(last)),
            _ => 0,
        };
        let least = if self.ends.len() == 2 { begun + others } else { begun };
        (least, Some(begun + others))
    }

//@ icu_text_sets/codepointinvliststringlist/set
impl<'data> CodePointInversionListAndStringList<'data> {
    /// Returns a set of these code points and of copies of the strings of this set.
    pub(crate) fn try_clone_with<'a>(
        &self,
        code_points: CodePointInversionList<'a>,
    ) -> Result<CodePointInversionListAndStringList<'a>, MemoryError> {
        Ok(CodePointInversionListAndStringList {
            cp_inv_list: code_points,
            str_list: copied(&self.str_list)?,
        })
    }

    /// Returns the set of these code points and strings. The strings ascend, and none has exactly one
    /// character.
    pub(crate) fn from_sorted(
        cp_inv_list: CodePointInversionList<'data>,
        str_list: Vec<String>,
    ) -> Self {
        CodePointInversionListAndStringList {
            cp_inv_list,
            str_list,
        }
    }

    /// Returns the strings of the set.
    pub(crate) fn into_strings(self) -> Vec<String> {
        self.str_list
    }

    /// Returns the same set, which then owns its code points. The strings are not copied, nor code
    /// points that the set already owns.
    ///
    /// # Errors
    /// Returns `MemoryError` if an allocation fails. The set is then dropped.
    pub fn try_into_owned(
        self,
    ) -> Result<CodePointInversionListAndStringList<'static>, MemoryError> {
        Ok(CodePointInversionListAndStringList {
            cp_inv_list: self.cp_inv_list.try_into_owned()?,
            str_list: self.str_list,
        })
    }
}

//@ icu_trie/iterator_utils
//# RangeListIteratorCoalescer
    /// All ranges may be joined to one.
    #[inline]
    fn size_hint(&self) -> (usize, Option<usize>) {
        let (least, most) = self.iter.size_hint();
        let peeked = usize::from(self.peek.is_some());
        (peeked.max(least.min(1)), most.and_then(|it| it.checked_add(peeked)))
    }

//@ icu_trie/mapped_ranges
//# MappedRanges
    #[inline]
    fn size_hint(&self) -> (usize, Option<usize>) {
        self.ranges.size_hint()
    }
//# IterRangesMapped
    #[inline]
    fn size_hint(&self) -> (usize, Option<usize>) {
        self.ranges.size_hint()
    }

//@ icu_trie/ranges
//# CodePointMapRangeIterator
    /// A trie that lacks a cell may have no range. Otherwise each has at least one code point.
    #[inline]
    fn size_hint(&self) -> (usize, Option<usize>) {
        (0, Some(CODE_POINT_LIMIT.saturating_sub(self.next) as usize))
    }

//@ icu_trie/ranges_of_value
//# IterRangesForValue
    #[inline]
    fn size_hint(&self) -> (usize, Option<usize>) {
        (0, self.ranges.size_hint().1)
    }

//@ icu_trie_text/indices
impl<T: TrieValue> DoubleEndedIterator for ValueIndicesOf<'_, T> {
    #[inline(always)]
    fn next_back(&mut self) -> Option<(usize, char, T)> {
        let last = self.rest.next_back()?;
        self.end -= last.len_utf8();
        Some((self.end, last, self.trie.get(last)))
    }
}

//# ValueIndicesOf
    #[inline]
    fn size_hint(&self) -> (usize, Option<usize>) {
        self.rest.size_hint()
    }

//@ icu_trie_text/utf16
impl<T: TrieValue> DoubleEndedIterator for ValuesOfUtf16<'_, T> {
    #[inline(always)]
    fn next_back(&mut self) -> Option<(u32, T)> {
        let last = self.rest.len().checked_sub(1)?;
        let start = match self.rest.get(last.wrapping_sub(1)..).and_then(first_code_point) {
            // The last two units are a pair.
            Some((_, [])) => last - 1,
            _ => last,
        };
        let (others, units) = self.rest.split_at(start);
        let (c, _) = first_code_point(units)?;
        self.rest = others;
        Some((c, self.trie.get32(c)))
    }
}

//# ValuesOfUtf16
    /// A code point is one unit or two.
    #[inline]
    fn size_hint(&self) -> (usize, Option<usize>) {
        (self.rest.len().div_ceil(2), Some(self.rest.len()))
    }

//@ icu_trie_text/utf8
//# ValuesOfUtf8
    /// A character, or what U+FFFD replaces, is one to four bytes.
    #[inline]
    fn size_hint(&self) -> (usize, Option<usize>) {
        (self.rest.len().div_ceil(4), Some(self.rest.len()))
    }

//@ icu_trie_text/values
impl<T: TrieValue> DoubleEndedIterator for ValuesOf<'_, T> {
    #[inline(always)]
    fn next_back(&mut self) -> Option<(char, T)> {
        let last = self.rest.next_back()?;
        Some((last, self.trie.get(last)))
    }
}

//# ValuesOf
    #[inline]
    fn size_hint(&self) -> (usize, Option<usize>) {
        self.rest.size_hint()
    }

//@ icu_zerovec/iter
impl<T: AsULE> DoubleEndedIterator for Iter<'_, T> {
    #[inline]
    fn next_back(&mut self) -> Option<T> {
        let place = self.bytes.len().checked_sub(T::WIDTH)?;
        let (others, last) = self.bytes.split_at(place);
        let value = T::from_unaligned(last)?;
        self.bytes = others;
        Some(value)
    }
}

impl<T: AsULE> core::iter::FusedIterator for Iter<'_, T> {}

//@ icu_zerovec/vec
impl<'a, T: AsULE> ZeroVec<'a, T> {
    /// Returns the same vector if it borrows its bytes, otherwise `None`.
    pub(crate) const fn borrowed(&self) -> Option<ZeroVec<'a, T>> {
        match self.store {
            Store::Borrowed(bytes) => Some(ZeroVec::from_packed(bytes)),
            Store::Owned(_) => None,
        }
    }
}
