//! Look-ups in tries that borrow their parts.
ghost use Rattle.std.specs.Str.{IsUtf8};

use icu_trie::cptrie::CodePointTrie;
use icu_trie::header::{CodePointTrieHeader, TrieType};
use icu_trie::typed::{Typed, TypedCodePointTrie};
use icu_trie::value::TrieValue;
use icu_zerovec::ZeroVec;

/// The parts of a trie that another program built. The cells of index and data have their lowest
/// byte first.
#[repr(C)]
#[derive(Clone, Copy)]
pub struct Parts<'a> {
    pub index: &'a [u8],
    pub data: &'a [u8],
    pub high_start: u32,
    pub data_null_offset: u32,
    pub null_value: u32,
    pub index3_null_offset: u16,
    pub is_fast: bool,
}

/// Returns the header of a trie with these parts.
fn header_of(parts: &Parts<'_>) -> CodePointTrieHeader {
    let trie_type = if parts.is_fast {
        TrieType::Fast
    } else {
        TrieType::Small
    };
    CodePointTrieHeader {
        high_start: parts.high_start,
        shifted12_high_start: 0,
        index3_null_offset: parts.index3_null_offset,
        data_null_offset: parts.data_null_offset,
        null_value: parts.null_value,
        trie_type,
    }
}

/// Returns the trie with these parts, which it borrows, or `None` if they are not a valid trie.
pub fn trie_of<'a, T: TrieValue>(parts: &Parts<'a>) -> Option<CodePointTrie<'a, T>> {
    let index = ZeroVec::parse_bytes(parts.index).ok()?;
    let data = ZeroVec::parse_bytes(parts.data).ok()?;
    CodePointTrie::try_new(header_of(parts), index, data).ok()
}

/// Returns the number of a value, or its square. Each loop of this crate is compiled for both, so
/// that it has two calls of a getter or an iterator, as an application has: rustc may inline one
/// call, but not two.
#[inline(always)]
pub fn power<T: TrieValue, const SQUARED: bool>(value: T) -> u64 {
    let number = value.to_u32() as u64;
    if SQUARED {
        number.wrapping_mul(number)
    } else {
        number
    }
}

/// Adds the values of these code points, or their squares, to `sum`. It is not inlined, so that its
/// loop can be found in the machine code. Each turn starts from the sum of the last one, so that the
/// compiler cannot remove a turn.
#[inline(never)]
fn add_values<T: TrieValue, const SQUARED: bool>(
    trie: &CodePointTrie<'_, T>,
    points: &[u32],
    sum: u64,
) -> u64 {
    let mut sum = sum;
    for c in points {
        sum = sum.wrapping_add(power::<T, SQUARED>(trie.get32(*c)));
    }
    sum
}

/// Adds the values of these code points, or their squares, to `sum`, in a trie whose type is known
/// at compile time.
#[inline(never)]
fn add_typed<'t, T: TrieValue, V: TypedCodePointTrie<'t, T>, const SQUARED: bool>(
    trie: &V,
    points: &[u32],
    sum: u64,
) -> u64 {
    let mut sum = sum;
    for c in points {
        sum = sum.wrapping_add(power::<T, SQUARED>(trie.get32(*c)));
    }
    sum
}

/// Adds the values of the characters of a text, or their squares, to `sum`.
#[inline(never)]
fn add_text<const SQUARED: bool>(trie: &CodePointTrie<'_, u8>, text: &str, sum: u64) -> u64 {
    let mut sum = sum;
    for c in text.chars() {
        sum = sum.wrapping_add(power::<u8, SQUARED>(trie.get(c)));
    }
    sum
}

fn values_added_often<T: TrieValue>(
    trie: &CodePointTrie<'_, T>,
    points: &[u32],
    turns: usize,
) -> u64 {
    let mut sum = 0u64;
    for _ in 0..turns / 2 {
        sum = add_values::<T, false>(trie, points, sum);
        sum = add_values::<T, true>(trie, points, sum);
    }
    sum
}

fn sum_of<T: TrieValue>(parts: &Parts<'_>, points: &[u32], turns: usize) -> u64 {
    match trie_of::<T>(parts) {
        Some(trie) => values_added_often(&trie, points, turns),
        None => u64::MAX,
    }
}

fn typed_added_often<'t, T: TrieValue, V: TypedCodePointTrie<'t, T>>(
    trie: &V,
    points: &[u32],
    turns: usize,
) -> u64 {
    let mut sum = 0u64;
    for _ in 0..turns / 2 {
        sum = add_typed::<T, V, false>(trie, points, sum);
        sum = add_typed::<T, V, true>(trie, points, sum);
    }
    sum
}

fn typed_sum<T: TrieValue>(trie: &CodePointTrie<'_, T>, points: &[u32], turns: usize) -> u64 {
    match trie.as_typed_ref() {
        Typed::Fast(trie) => typed_added_often(&trie, points, turns),
        Typed::Small(trie) => typed_added_often(&trie, points, turns),
    }
}

fn typed_sum_of<T: TrieValue>(parts: &Parts<'_>, points: &[u32], turns: usize) -> u64 {
    match trie_of::<T>(parts) {
        Some(trie) => typed_sum(&trie, points, turns),
        None => u64::MAX,
    }
}

/// Writes the value of each code point to `answers`.
fn write_answers<T: TrieValue>(trie: &CodePointTrie<'_, T>, points: &[u32], answers: &mut [u32]) {
    for (c, answer) in points.iter().zip(answers.iter_mut()) {
        *answer = trie.get32(*c).to_u32();
    }
}

/// Writes the value of each code point in the trie with these parts to `answers`. Returns false if
/// they are not a valid trie.
fn answers_of<T: TrieValue>(parts: &Parts<'_>, points: &[u32], answers: &mut [u32]) -> bool {
    match trie_of::<T>(parts) {
        Some(trie) => {
            write_answers(&trie, points, answers);
            true
        }
        None => false,
    }
}

fn text_added_often(trie: &CodePointTrie<'_, u8>, text: &str, turns: usize) -> u64 {
    let mut sum = 0u64;
    for _ in 0..turns / 2 {
        sum = add_text::<false>(trie, text, sum);
        sum = add_text::<true>(trie, text, sum);
    }
    sum
}

/// Adds up the values of these code points in a trie of 8-bit values, and their squares, in `turns` turns.
#[unsafe(no_mangle)]
pub extern "C" fn ours_get_8(parts: &Parts<'_>, points: &[u32], turns: usize) -> u64 {
    sum_of::<u8>(parts, points, turns)
}

/// Adds up the values of these code points in a trie of 16-bit values, and their squares, in `turns` turns.
#[unsafe(no_mangle)]
pub extern "C" fn ours_get_16(parts: &Parts<'_>, points: &[u32], turns: usize) -> u64 {
    sum_of::<u16>(parts, points, turns)
}

/// Adds up the values of these code points in a trie of 32-bit values, and their squares, in `turns` turns.
#[unsafe(no_mangle)]
pub extern "C" fn ours_get_32(parts: &Parts<'_>, points: &[u32], turns: usize) -> u64 {
    sum_of::<u32>(parts, points, turns)
}

/// Adds up the values of these code points in a typed trie of 8-bit values, and their squares, in `turns`
/// turns.
#[unsafe(no_mangle)]
pub extern "C" fn ours_typed_8(parts: &Parts<'_>, points: &[u32], turns: usize) -> u64 {
    typed_sum_of::<u8>(parts, points, turns)
}

/// Adds up the values of these code points in a typed trie of 16-bit values, and their squares, in `turns`
/// turns.
#[unsafe(no_mangle)]
pub extern "C" fn ours_typed_16(parts: &Parts<'_>, points: &[u32], turns: usize) -> u64 {
    typed_sum_of::<u16>(parts, points, turns)
}

/// Adds up the values of these code points in a typed trie of 32-bit values, and their squares, in `turns`
/// turns.
#[unsafe(no_mangle)]
pub extern "C" fn ours_typed_32(parts: &Parts<'_>, points: &[u32], turns: usize) -> u64 {
    typed_sum_of::<u32>(parts, points, turns)
}

/// Adds up the values of the characters of a text, and their squares, in `turns` turns. The text is UTF-8:
/// a test would take time, and ICU makes none.
#[unsafe(no_mangle)]
pub extern "C" fn ours_text_8(parts: &Parts<'_>, text: &[u8], turns: usize) -> u64
    requires { IsUtf8 text.now }
{
    let text = unsafe { std::str::from_utf8_unchecked(text) };
    match trie_of::<u8>(parts) {
        Some(trie) => text_added_often(&trie, text, turns),
        None => u64::MAX,
    }
}

/// Writes the value of each code point in a trie of 8-bit values.
#[unsafe(no_mangle)]
pub extern "C" fn ours_answers_8(parts: &Parts<'_>, points: &[u32], answers: &mut [u32]) -> bool {
    answers_of::<u8>(parts, points, answers)
}

/// Writes the value of each code point in a trie of 16-bit values.
#[unsafe(no_mangle)]
pub extern "C" fn ours_answers_16(parts: &Parts<'_>, points: &[u32], answers: &mut [u32]) -> bool {
    answers_of::<u16>(parts, points, answers)
}

/// Writes the value of each code point in a trie of 32-bit values.
#[unsafe(no_mangle)]
pub extern "C" fn ours_answers_32(parts: &Parts<'_>, points: &[u32], answers: &mut [u32]) -> bool {
    answers_of::<u32>(parts, points, answers)
}
