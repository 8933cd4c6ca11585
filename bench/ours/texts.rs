//! Values of a trie of 8-bit values along a text. Each function runs an even number of turns, half of
//! them with the squares of the values, and returns a sum over all turns. A text is UTF-8 unless the
//! function says otherwise: a test would take time, and ICU makes none.
ghost use Rattle.std.specs.Str.{IsUtf8};

use crate::tries::{Parts, power, trie_of};
use icu_trie::cptrie::CodePointTrie;
use icu_trie_text::text::{
    copy_values, find_value, span_of_values, value_indices_of, values_of, values_of_utf8,
};

/// Adds the values of the characters of a text to `sum`.
#[inline(never)]
fn add_values<const SQUARED: bool>(trie: &CodePointTrie<'_, u8>, text: &str, sum: u64) -> u64 {
    let mut sum = sum;
    for (_, value) in values_of(trie, text) {
        sum = sum.wrapping_add(power::<u8, SQUARED>(value));
    }
    sum
}

/// Adds up the values of a text.
#[unsafe(no_mangle)]
pub extern "C" fn ours_values_8(parts: &Parts<'_>, text: &[u8], turns: usize) -> u64
    requires { IsUtf8 text.now }
{
    let text = unsafe { std::str::from_utf8_unchecked(text) };
    let Some(trie) = trie_of::<u8>(parts) else {
        return u64::MAX;
    };
    let mut sum = 0u64;
    for _ in 0..turns / 2 {
        sum = add_values::<false>(&trie, text, sum);
        sum = add_values::<true>(&trie, text, sum);
    }
    sum
}

/// Adds the byte offsets of the characters of a text, each mixed with the value, to `sum`.
#[inline(never)]
fn add_indices<const SQUARED: bool>(trie: &CodePointTrie<'_, u8>, text: &str, sum: u64) -> u64 {
    let mut sum = sum;
    for (offset, _, value) in value_indices_of(trie, text) {
        sum = sum.wrapping_add(offset as u64 ^ power::<u8, SQUARED>(value));
    }
    sum
}

/// Adds up the byte offsets and the values of a text.
#[unsafe(no_mangle)]
pub extern "C" fn ours_indices_8(parts: &Parts<'_>, text: &[u8], turns: usize) -> u64
    requires { IsUtf8 text.now }
{
    let text = unsafe { std::str::from_utf8_unchecked(text) };
    let Some(trie) = trie_of::<u8>(parts) else {
        return u64::MAX;
    };
    let mut sum = 0u64;
    for _ in 0..turns / 2 {
        sum = add_indices::<false>(&trie, text, sum);
        sum = add_indices::<true>(&trie, text, sum);
    }
    sum
}

/// Adds the byte offset of the first character with a value to `sum`, or the length of the text.
#[inline(never)]
fn add_found(trie: &CodePointTrie<'_, u8>, text: &str, wanted: u64, sum: u64) -> u64 {
    match find_value(trie, text, |value| power::<u8, false>(value) == wanted) {
        Some(found) => sum.wrapping_add(found.offset as u64),
        None => sum.wrapping_add(text.len() as u64),
    }
}

/// Adds the byte offset of the first character whose value has this square.
#[inline(never)]
fn add_found_square(trie: &CodePointTrie<'_, u8>, text: &str, wanted: u64, sum: u64) -> u64 {
    match find_value(trie, text, |value| power::<u8, true>(value) == wanted) {
        Some(found) => sum.wrapping_add(found.offset as u64),
        None => sum.wrapping_add(text.len() as u64),
    }
}

/// Adds up the byte offsets of the first character with a value, for the values from 0 on.
#[unsafe(no_mangle)]
pub extern "C" fn ours_find_8(parts: &Parts<'_>, text: &[u8], turns: usize) -> u64
    requires { IsUtf8 text.now }
{
    let text = unsafe { std::str::from_utf8_unchecked(text) };
    let Some(trie) = trie_of::<u8>(parts) else {
        return u64::MAX;
    };
    let mut sum = 0u64;
    for wanted in 0..turns / 2 {
        sum = add_found(&trie, text, wanted as u64, sum);
        sum = add_found_square(&trie, text, wanted as u64, sum);
    }
    sum
}

/// Adds the same offset to `sum`, as the length of the span of other values.
#[inline(never)]
fn add_span(trie: &CodePointTrie<'_, u8>, text: &str, wanted: u64, sum: u64) -> u64 {
    let span = span_of_values(trie, text, |value| power::<u8, false>(value) != wanted);
    sum.wrapping_add(span as u64)
}

/// Adds the length of the span of values with other squares.
#[inline(never)]
fn add_span_of_squares(trie: &CodePointTrie<'_, u8>, text: &str, wanted: u64, sum: u64) -> u64 {
    let span = span_of_values(trie, text, |value| power::<u8, true>(value) != wanted);
    sum.wrapping_add(span as u64)
}

/// Adds up the same offsets, as spans.
#[unsafe(no_mangle)]
pub extern "C" fn ours_span_8(parts: &Parts<'_>, text: &[u8], turns: usize) -> u64
    requires { IsUtf8 text.now }
{
    let text = unsafe { std::str::from_utf8_unchecked(text) };
    let Some(trie) = trie_of::<u8>(parts) else {
        return u64::MAX;
    };
    let mut sum = 0u64;
    for wanted in 0..turns / 2 {
        sum = add_span(&trie, text, wanted as u64, sum);
        sum = add_span_of_squares(&trie, text, wanted as u64, sum);
    }
    sum
}

/// Adds the values for bytes that may be ill-formed UTF-8 to `sum`.
#[inline(never)]
fn add_values_of_bytes<const SQUARED: bool>(
    trie: &CodePointTrie<'_, u8>,
    bytes: &[u8],
    sum: u64,
) -> u64 {
    let mut sum = sum;
    for (_, value) in values_of_utf8(trie, bytes) {
        sum = sum.wrapping_add(power::<u8, SQUARED>(value));
    }
    sum
}

fn values_of_bytes_added_often(trie: &CodePointTrie<'_, u8>, bytes: &[u8], turns: usize) -> u64 {
    let mut sum = 0u64;
    for _ in 0..turns / 2 {
        sum = add_values_of_bytes::<false>(trie, bytes, sum);
        sum = add_values_of_bytes::<true>(trie, bytes, sum);
    }
    sum
}

/// Adds up the values for bytes that may be ill-formed UTF-8.
#[unsafe(no_mangle)]
pub extern "C" fn ours_bytes_8(parts: &Parts<'_>, bytes: &[u8], turns: usize) -> u64 {
    match trie_of::<u8>(parts) {
        Some(trie) => values_of_bytes_added_often(&trie, bytes, turns),
        None => u64::MAX,
    }
}

/// Copies the values for bytes that may be ill-formed UTF-8 to a buffer, and adds them to `sum`.
#[inline(never)]
fn add_copied<const SQUARED: bool>(
    trie: &CodePointTrie<'_, u8>,
    bytes: &[u8],
    values: &mut [u8],
    sum: u64,
) -> u64 {
    let mut sum = sum;
    let _ = copy_values(trie, bytes, values);
    for value in values.iter() {
        sum = sum.wrapping_add(power::<u8, SQUARED>(*value));
    }
    sum
}

fn copied_often(
    trie: &CodePointTrie<'_, u8>,
    bytes: &[u8],
    values: &mut [u8],
    turns: usize,
) -> u64 {
    let mut sum = 0u64;
    for _ in 0..turns / 2 {
        sum = add_copied::<false>(trie, bytes, values, sum);
        sum = add_copied::<true>(trie, bytes, values, sum);
    }
    sum
}

/// Copies the values for bytes that may be ill-formed UTF-8 to a buffer, and adds up all
/// values of the buffer.
#[unsafe(no_mangle)]
pub extern "C" fn ours_copy_8(
    parts: &Parts<'_>,
    bytes: &[u8],
    values: &mut [u8],
    turns: usize,
) -> u64 {
    match trie_of::<u8>(parts) {
        Some(trie) => copied_often(&trie, bytes, values, turns),
        None => u64::MAX,
    }
}
