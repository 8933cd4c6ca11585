//! A set as source in Rust.

use crate::host::*;
use crate::support::AllocError;
use crate::support::prelude::*;
use crate::ucptab_table::pattern::Number::Decimal;
use crate::ucptab_table::pattern::push_pattern;
use crate::ucptrie_sets::source::{
    frozen_of, last_block_of, push_boundaries, push_words, title_of,
};
use bekstaudi::codepointinvlist::CodePointInversionList;

/// The search in the boundaries.
const SEARCH: &str = "
    ];

    /// Returns whether the set contains `c`: whether an odd number of boundaries are at most `c`.
    pub fn contains(c: u32) -> bool {
        BOUNDARIES.partition_point(|&boundary| boundary <= c) % 2 == 1
    }
}
";

/// What precedes the boundaries. `@` is replaced by the name, and `%` by their number.
const BOUNDARIES: &str = "\
#[allow(dead_code, non_snake_case, clippy::module_inception)]
pub mod @ {
    /// The set starts at the first boundary, ends before the second one, and so on.
    #[rustfmt::skip]
    pub static BOUNDARIES: [u32; %] = [
";

/// Appends what precedes so many boundaries.
fn push_head(text: &mut String, name: &str, count: usize) -> Result<(), AllocError> {
    push_pattern(text, BOUNDARIES, name, &[Decimal(count)])
}

/// Appends the search in the boundaries.
fn push_search(text: &mut String) -> Result<(), AllocError> {
    text.try_push_str(SEARCH)
}

/// Returns the set in Rust: a module with the boundaries, and a search in them.
pub(crate) fn rust_text(
    set: &CodePointInversionList<'_>,
    name: &str,
) -> Result<String, AllocError> {
    let mut text = title_of(set)?;
    push_head(&mut text, name, set.as_inversion_list().len())?;
    push_boundaries(&mut text, set)?;
    push_search(&mut text)?;
    Ok(text)
}

/// The look-up in the words.
const LOOK_UP: &str = "
    ];

    /// Returns whether the set contains `c`, by two reads.
    pub fn contains(c: u32) -> bool {
        if c > 0x10FFFF {
            return false;
        }
        let block = (c >> 10).min(LAST_BLOCK);
        let offset = WORDS[block as usize];
        let word = WORDS[offset as usize + (c >> 6 & 15) as usize];
        (word >> (c & 63)) & 1 == 1
    }
}
";

/// What precedes the words. `@` is replaced by the name, and `%` by a number.
const WORDS: &str = "\
#[allow(dead_code, non_snake_case, clippy::module_inception)]
pub mod @ {
    /// The last block with an offset, which is that of all later blocks too.
    const LAST_BLOCK: u32 = %;

    /// The words of the frozen set, for `FrozenView` of `bekstaudi`. First come offsets, one for each
    /// block of 1,024 code points. A block's offset is the index of its sixteen words, which have a
    /// bit for each code point.
    #[rustfmt::skip]
    pub static WORDS: [u64; %] = [
";

/// Appends what precedes so many words of a frozen set, in which `last` is the last block with an
/// offset.
fn push_frozen_head(
    text: &mut String,
    name: &str,
    count: usize,
    last: usize,
) -> Result<(), AllocError> {
    push_pattern(text, WORDS, name, &[Decimal(last), Decimal(count)])
}

/// Appends the look-up in the words of a frozen set.
fn push_look_up(text: &mut String) -> Result<(), AllocError> {
    text.try_push_str(LOOK_UP)
}

/// Appends a module with the words of a frozen set, and a look-up in them.
fn push_frozen(text: &mut String, words: &[u64], name: &str) -> Result<(), AllocError> {
    push_frozen_head(text, name, words.len(), last_block_of(words))?;
    push_words(text, words)?;
    push_look_up(text)
}

/// Returns the frozen set in Rust: a module with its words, and a look-up in them.
pub(crate) fn frozen_rust_text(
    set: &CodePointInversionList<'_>,
    name: &str,
) -> Result<String, AllocError> {
    let frozen = frozen_of(set)?;
    let mut text = title_of(set)?;
    push_frozen(&mut text, frozen.as_words(), name)?;
    Ok(text)
}
