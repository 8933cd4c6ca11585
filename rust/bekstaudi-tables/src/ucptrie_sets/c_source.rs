//! A set as source in C.

use crate::host::*;
use crate::support::AllocError;
use crate::support::prelude::*;
use crate::ucptab_table::pattern::Number::Decimal;
use crate::ucptab_table::pattern::{push_named, push_pattern};
use crate::ucptrie_sets::source::{
    frozen_of, last_block_of, push_boundaries, push_words, title_of,
};
use bekstaudi::codepointinvlist::CodePointInversionList;

/// What precedes the boundaries. `@` is replaced by the name, and `%` by a number.
const BOUNDARIES: &str = "
#include <stdbool.h>
#include <stdint.h>

// The set starts at the first boundary, ends before the second one, and so on.
enum { @_length = % };

static const uint32_t @_boundaries[%] = {
";

/// The search in the boundaries. Each `@` is replaced by the name.
const SEARCH: &str = "
};

// Whether c is in the set: whether an odd number of boundaries are at most c.
static inline bool @_contains(uint32_t c) {
    uint32_t low = 0, high = @_length;
    while (low < high) {
        uint32_t middle = (low + high) / 2;
        if (@_boundaries[middle] <= c) {
            low = middle + 1;
        } else {
            high = middle;
        }
    }
    return low % 2 == 1;
}
";

/// Appends what precedes so many boundaries. An array in C is not empty, so that of the empty set
/// has a cell that is not read.
fn push_head(text: &mut String, name: &str, count: usize) -> Result<(), AllocError> {
    push_pattern(
        text,
        BOUNDARIES,
        name,
        &[Decimal(count), Decimal(count.max(1))],
    )
}

/// Appends the boundaries of a set, or the cell that is not read.
fn push_cells(text: &mut String, set: &CodePointInversionList<'_>) -> Result<(), AllocError> {
    if set.is_empty() {
        return text.try_push('0');
    }
    push_boundaries(text, set)
}

/// Appends the search in the boundaries.
fn push_search(text: &mut String, name: &str) -> Result<(), AllocError> {
    push_named(text, SEARCH, name)
}

/// Returns the set in C: an array with the boundaries, and a search in it.
pub(crate) fn c_text(set: &CodePointInversionList<'_>, name: &str) -> Result<String, AllocError> {
    let mut text = title_of(set)?;
    push_head(&mut text, name, set.as_inversion_list().len())?;
    push_cells(&mut text, set)?;
    push_search(&mut text, name)?;
    Ok(text)
}

/// What precedes the words of a frozen set. `@` is replaced by the name, and `%` by a number.
const WORDS: &str = "\
// The words of the frozen set, for bks_frozen_contains and bks_frozen_has of bekstaudi.h. First come
// offsets, one for each block of 1,024 code points. A block's offset is the index of its sixteen words,
// which have a bit for each code point. The last offset is that of all later blocks.

#include <stdbool.h>
#include <stdint.h>

enum { @_length = %, @_last_block = % };

static const uint64_t @_words[@_length] = {
";

/// The look-up in the words. Each `@` is replaced by the name.
const LOOK_UP: &str = "
};

// Whether c is in the set, by two reads and without a library.
static inline bool @_contains(uint32_t c) {
    uint32_t block = c >> 10;
    if (c > 0x10ffff) return false;
    if (block > @_last_block) block = @_last_block;
    return @_words[@_words[block] + (c >> 6 & 15)] >> (c & 63) & 1;
}
";

/// Appends what precedes so many words of a frozen set, in which `last` is the last block with an
/// offset.
fn push_frozen_head(
    text: &mut String,
    name: &str,
    count: usize,
    last: usize,
) -> Result<(), AllocError> {
    push_pattern(text, WORDS, name, &[Decimal(count), Decimal(last)])
}

/// Appends the look-up in the words of a frozen set.
fn push_look_up(text: &mut String, name: &str) -> Result<(), AllocError> {
    push_named(text, LOOK_UP, name)
}

/// Appends an array with the words of a frozen set, and a look-up in it.
fn push_frozen(text: &mut String, words: &[u64], name: &str) -> Result<(), AllocError> {
    push_frozen_head(text, name, words.len(), last_block_of(words))?;
    push_words(text, words)?;
    push_look_up(text, name)
}

/// Returns the frozen set in C: an array with its words, and a look-up in it.
pub(crate) fn frozen_c_text(
    set: &CodePointInversionList<'_>,
    name: &str,
) -> Result<String, AllocError> {
    let frozen = frozen_of(set)?;
    let mut text = title_of(set)?;
    push_frozen(&mut text, frozen.as_words(), name)?;
    Ok(text)
}
