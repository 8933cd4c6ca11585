//! The entries of a unit trie whose keys start with a text, page by page.

use crate::icu_char16trie::char16trie::Entries;
use crate::icu_collections_c::buffers::write;
use crate::icu_collections_c::error::Error;
use crate::icu_collections_c::listing::Word;
use crate::icu_collections_c::units::trie_in;
use crate::icu_zerovec::MemoryError;
use crate::support::AllocError;
use crate::support::prelude::*;
use core::fmt::Write;

/// Consecutive entries of a listing.
pub(crate) struct Page {
    words: Vec<Word>,
    texts: Vec<u8>,
    /// How many bytes the texts take, with that of the next entry if only its text did not fit.
    size: usize,
}

impl Page {
    /// Makes a page without entries.
    #[inline]
    fn new() -> Page {
        Page {
            words: Vec::new(),
            texts: Vec::new(),
            size: 0,
        }
    }

    /// Adds an entry, whose text is `prefix` and then `rest`.
    #[inline]
    fn try_push(&mut self, prefix: &str, rest: &str, value: i32) -> Result<(), AllocError> {
        self.words.try_push(Word {
            start: self.texts.len(),
            size: prefix.len() + rest.len(),
            value,
        })?;
        self.texts.try_extend_from_slice(prefix.as_bytes())?;
        self.texts.try_extend_from_slice(rest.as_bytes())
    }
}

/// Skips entries. Returns false if there are fewer.
#[inline]
fn skip(entries: &mut Entries<'_>, count: u64) -> Result<bool, MemoryError> {
    for _skipped in 0..count {
        if !entries.try_advance()? {
            return Ok(false);
        }
    }
    Ok(true)
}

/// Returns the size of all texts with one more, whose two parts have these sizes.
#[inline]
fn size_with(size: usize, first: usize, second: usize) -> Result<usize, MemoryError> {
    match size.checked_add(first + second) {
        Some(sum) => Ok(sum),
        None => Err(MemoryError),
    }
}

/// Returns the next entries of a listing: as many as fit in so many words and bytes.
fn page_of(
    entries: &mut Entries<'_>,
    prefix: &str,
    most_words: usize,
    most_bytes: usize,
) -> Result<Page, MemoryError> {
    let mut page = Page::new();
    for _listed in 0..most_words {
        if !entries.try_advance()? {
            return Ok(page);
        }
        let rest = entries.key();
        page.size = size_with(page.size, prefix.len(), rest.len())?;
        if page.size > most_bytes {
            return Ok(page);
        }
        page.try_push(prefix, rest, entries.value())?;
    }
    Ok(page)
}

/// Returns the entries whose keys start with a text, from one of them on, as many as fit.
fn page_below(
    units: &[u8],
    prefix: &str,
    skipped: u64,
    most_words: usize,
    most_bytes: usize,
) -> Result<Page, MemoryError> {
    let trie = trie_in(units);
    let mut cursor = trie.cursor();
    let Ok(()) = cursor.write_str(prefix) else {
        unreachable!();
    };
    let mut entries = cursor.entries();
    if !skip(&mut entries, skipped)? {
        return Ok(Page::new());
    }
    page_of(&mut entries, prefix, most_words, most_bytes)
}

/// Lists the entries whose keys start with `prefix`, a text in UTF-8, in unit order, without the
/// first `skipped` of them. Writes as many as fit and stops there. Returns how many it wrote, and
/// stores in `texts_size` how many bytes their texts take.
///
/// The text of an entry is its key in UTF-8, with each lone surrogate as U+FFFD. The text of a word
/// `w` is `texts[w.start..w.start + w.size]`.
///
/// If it fills `words`, more entries may follow: call it again with `skipped` larger by that
/// number. If it writes fewer and `texts_size` is at most the length of `texts`, no entry is left.
/// If it writes fewer and `texts_size` is above that length, the next text did not fit.
/// `texts_size` then includes that text, so texts of that size hold one more entry.
///
/// It takes time for the entries that it skips and writes, not for those that follow. For each of
/// them it opens at most as many nodes as there are units, even if the units are not a trie. The
/// entries are then those that the nodes have, as far as they can be read.
///
/// ICU: `UCharsTrie::Iterator` of a trie that is not at its root.
///
/// # Errors
/// Returns the number of [`Error::InvalidUtf8`] if `prefix` is not UTF-8, and of [`Error::NoMemory`]
/// if an allocation fails. Nothing is then written.
pub fn bks_units_list_below(
    units: &[u8],
    prefix: &[u8],
    skipped: u64,
    words: &mut [Word],
    texts: &mut [u8],
    texts_size: &mut usize,
) -> i64 {
    let Ok(prefix) = str::from_utf8(prefix) else {
        return Error::InvalidUtf8.number();
    };
    match page_below(units, prefix, skipped, words.len(), texts.len()) {
        Ok(page) => {
            write(&page.words, words);
            write(&page.texts, texts);
            *texts_size = page.size;
            page.words.len() as i64
        }
        Err(_) => Error::NoMemory.number(),
    }
}
