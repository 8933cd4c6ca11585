//! Building tries from the rows of a table, and the number of cells in each.

use icu_trie::cptrie::CodePointTrie;
use icu_trie::header::TrieType;
use icu_trie::value::TrieValue;
use icu_trie_builder::build_from_writes;
use icu_trie_builder::writes::Write;
use std::alloc::Global;

/// A row of a table: the code points from `start` to `end` inclusive have this value.
#[repr(C)]
#[derive(Clone, Copy)]
pub struct Row {
    pub start: u32,
    pub end: u32,
    pub value: u32,
}

/// The number of cells of a trie, and three fields of its header.
#[repr(C)]
#[derive(Clone, Copy)]
pub struct Sizes {
    pub index: usize,
    pub data: usize,
    pub high_start: u32,
    pub data_null_offset: u32,
    pub null_value: u32,
}

/// Appends the writes for these rows. Returns `None` if an allocation fails or a value does not fit
/// the type.
fn add_writes<T: TrieValue>(writes: &mut Vec<Write<T>>, rows: &[Row]) -> Option<()> {
    for row in rows {
        let value = T::try_from_u32(row.value).ok()?;
        writes.push(Write::Range(row.start..=row.end, value)).ok()?;
    }
    Some(())
}

/// Returns the writes for these rows, or `None` if an allocation fails or a value does not fit the
/// type.
fn writes_of<T: TrieValue>(alloc: Global, rows: &[Row]) -> Option<Vec<Write<T>>> {
    let mut writes = Vec::with_capacity(alloc, rows.len()).ok()?;
    add_writes(&mut writes, rows)?;
    Some(writes)
}

/// Writes the sizes of a trie to `sizes`.
fn sizes_of<T: TrieValue>(trie: &CodePointTrie<'_, T>, sizes: &mut Sizes) {
    let (header, index, data) = trie.parts();
    sizes.index = index.len();
    sizes.data = data.len();
    sizes.high_start = header.high_start;
    sizes.data_null_offset = header.data_null_offset;
    sizes.null_value = header.null_value;
}

/// Writes the value of each code point below the length of `answers`.
fn answers_of<T: TrieValue>(trie: &CodePointTrie<'_, T>, answers: &mut [u32]) {
    for c in 0..answers.len() {
        answers[c] = match u32::try_from(c) {
            Ok(c) => trie.get32(c).to_u32(),
            Err(_) => 0,
        };
    }
}

fn built<T: TrieValue>(
    alloc: Global,
    is_fast: bool,
    rows: &[Row],
    error: u32,
    sizes: &mut Sizes,
    answers: &mut [u32],
) -> bool {
    let trie_type = if is_fast {
        TrieType::Fast
    } else {
        TrieType::Small
    };
    let Ok(default) = T::try_from_u32(0) else {
        return false;
    };
    let Ok(error) = T::try_from_u32(error) else {
        return false;
    };
    let Some(writes) = writes_of::<T>(alloc, rows) else {
        return false;
    };
    match build_from_writes(alloc, default, error, trie_type, &writes) {
        Ok(trie) => {
            sizes_of(&trie, sizes);
            answers_of(&trie, answers);
            true
        }
        Err(_) => false,
    }
}

/// Builds a trie of 8-bit values from these rows, with the default value 0. Writes its sizes, and
/// the value of each code point to `answers`. Returns false if it cannot be built.
#[unsafe(no_mangle)]
pub extern "C" fn ours_build_8(
    alloc: Global,
    is_fast: bool,
    rows: &[Row],
    error: u32,
    sizes: &mut Sizes,
    answers: &mut [u32],
) -> bool {
    built::<u8>(alloc, is_fast, rows, error, sizes, answers)
}

/// Builds a trie of 16-bit values from these rows, with the default value 0. Writes its sizes, and
/// the value of each code point to `answers`. Returns false if it cannot be built.
#[unsafe(no_mangle)]
pub extern "C" fn ours_build_16(
    alloc: Global,
    is_fast: bool,
    rows: &[Row],
    error: u32,
    sizes: &mut Sizes,
    answers: &mut [u32],
) -> bool {
    built::<u16>(alloc, is_fast, rows, error, sizes, answers)
}

/// Builds a trie of 32-bit values from these rows, with the default value 0. Writes its sizes, and
/// the value of each code point to `answers`. Returns false if it cannot be built.
#[unsafe(no_mangle)]
pub extern "C" fn ours_build_32(
    alloc: Global,
    is_fast: bool,
    rows: &[Row],
    error: u32,
    sizes: &mut Sizes,
    answers: &mut [u32],
) -> bool {
    built::<u32>(alloc, is_fast, rows, error, sizes, answers)
}
