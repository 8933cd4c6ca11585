//! Unit tries: building from keys, looking up keys, and listing. The keys are concatenated, and key
//! i ends before `ends[i]`.

use crate::mixing::mixed;
use icu_char16trie::char16trie::Char16Trie;
use icu_char16trie_builder::builder::Char16TrieBuilder;
use icu_zerovec::ZeroVec;
use std::alloc::Global;

/// Adds the keys with their values. Returns `None` if a key is rejected or an allocation fails.
fn add_entries(
    builder: &mut Char16TrieBuilder,
    keys: &[u16],
    ends: &[u32],
    values: &[i32],
) -> Option<()> {
    let mut start = 0;
    for (end, value) in ends.iter().zip(values.iter()) {
        let end = *end as usize;
        if start > end || end > keys.len() || builder.add(&keys[start..end], *value).is_err() {
            return None;
        }
        start = end;
    }
    Some(())
}

/// Returns the trie of these keys with their values, or `None` if a key is rejected or an
/// allocation fails.
fn built(alloc: Global, keys: &[u16], ends: &[u32], values: &[i32]) -> Option<Char16Trie<'static>> {
    let mut builder = Char16TrieBuilder::new(alloc);
    add_entries(&mut builder, keys, ends, values)?;
    builder.build().ok()
}

/// Writes the units of the trie, as many as fit. Returns how many there are.
fn write_units(trie: &Char16Trie<'_>, units: &mut [u16]) -> usize {
    for (place, unit) in units.iter_mut().zip(trie.data.iter()) {
        *place = unit;
    }
    trie.data.len()
}

/// Builds a trie of these entries, and writes its units, as many as fit. Returns how many there
/// are, or 0 if a key is rejected or an allocation fails.
#[unsafe(no_mangle)]
pub extern "C" fn ours_c16_build(
    alloc: Global,
    keys: &[u16],
    ends: &[u32],
    values: &[i32],
    units: &mut [u16],
) -> usize {
    match built(alloc, keys, ends, values) {
        Some(trie) => write_units(&trie, units),
        None => 0,
    }
}

/// Returns the value of a key, or 7 if it has none.
#[inline(never)]
fn value_of(trie: &Char16Trie<'_>, key: &[u16]) -> u32 {
    let mut cursor = trie.cursor();
    for unit in key {
        cursor.step16(*unit);
    }
    cursor.value().unwrap_or(7).cast_unsigned()
}

/// Returns the sum of the values of all prefixes of a key, as a search for the longest match reads
/// them.
#[inline(never)]
fn values_along(trie: &Char16Trie<'_>, key: &[u16]) -> u32 {
    let mut sum = 0u32;
    let mut cursor = trie.cursor();
    for unit in key {
        cursor.step16(*unit);
        sum = sum.wrapping_add(cursor.value().unwrap_or(7).cast_unsigned());
    }
    sum
}

fn mixed_values(trie: &Char16Trie<'_>, keys: &[u16], ends: &[u32], along: bool) -> u64 {
    let mut sum = 0u64;
    let mut start = 0;
    for end in ends {
        let end = *end as usize;
        if start > end || end > keys.len() {
            return u64::MAX;
        }
        let key = &keys[start..end];
        sum = mixed(
            sum,
            if along {
                values_along(trie, key)
            } else {
                value_of(trie, key)
            },
        );
        start = end;
    }
    sum
}

/// Returns a checksum of the values of all keys, or of all their prefixes if `along` is true.
#[unsafe(no_mangle)]
pub extern "C" fn ours_c16_look(units: &[u8], keys: &[u16], ends: &[u32], along: bool) -> u64 {
    match ZeroVec::parse_bytes(units) {
        Ok(units) => mixed_values(&Char16Trie::new(units), keys, ends, along),
        Err(_) => u64::MAX,
    }
}

/// Returns a checksum of the lengths and values of the longest keys that start at each position of
/// a text. At a position without a key these are 0 and 7.
fn mixed_matches(trie: &Char16Trie<'_>, text: &[u16]) -> u64 {
    let mut sum = 0u64;
    for start in 0..text.len() {
        let (length, value) = trie.longest_match(&text[start..]).unwrap_or((0, 7));
        let length = u32::try_from(length).unwrap_or(u32::MAX);
        sum = mixed(mixed(sum, length), value.cast_unsigned());
    }
    sum
}

/// Finds the longest key that starts at each position of a text.
#[unsafe(no_mangle)]
pub extern "C" fn ours_c16_longest(units: &[u8], text: &[u16]) -> u64 {
    match ZeroVec::parse_bytes(units) {
        Ok(units) => mixed_matches(&Char16Trie::new(units), text),
        Err(_) => u64::MAX,
    }
}

fn mixed_entries(alloc: Global, trie: &Char16Trie<'_>) -> u64 {
    let mut sum = 0u64;
    for entry in trie.iter2(alloc) {
        let Ok((_, value)) = entry else {
            return u64::MAX;
        };
        sum = mixed(sum, value.cast_unsigned());
    }
    sum
}

/// Returns a checksum of the values of all entries, in unit order, by an iterator that returns each
/// key as a text of its own.
#[unsafe(no_mangle)]
pub extern "C" fn ours_c16_iter(alloc: Global, units: &[u8]) -> u64 {
    match ZeroVec::parse_bytes(units) {
        Ok(units) => mixed_entries(alloc, &Char16Trie::new(units)),
        Err(_) => u64::MAX,
    }
}

fn mixed_listing(alloc: Global, trie: &Char16Trie<'_>) -> u64 {
    let mut sum = 0u64;
    let mut entries = trie.entries(alloc);
    for _ in 0..u64::MAX {
        match entries.advance() {
            Ok(true) => sum = mixed(sum, entries.value().cast_unsigned()),
            Ok(false) => return sum,
            Err(_) => return u64::MAX,
        }
    }
    sum
}

/// Returns a checksum of the values of all entries, in unit order, by a listing that has the text
/// of each key in one buffer.
#[unsafe(no_mangle)]
pub extern "C" fn ours_c16_entries(alloc: Global, units: &[u8]) -> u64 {
    match ZeroVec::parse_bytes(units) {
        Ok(units) => mixed_listing(alloc, &Char16Trie::new(units)),
        Err(_) => u64::MAX,
    }
}

fn add_line(all: &mut String, key: &str) -> Option<()> {
    all.push_str(key).ok()?;
    all.push('\n').ok()
}

fn add_lines(alloc: Global, trie: &Char16Trie<'_>, all: &mut String) -> Option<()> {
    for entry in trie.iter2(alloc) {
        let (key, _) = entry.ok()?;
        add_line(all, &key)?;
    }
    Some(())
}

/// Returns the keys of a trie in unit order as one text, each followed by a newline.
fn joined_keys(alloc: Global, trie: &Char16Trie<'_>) -> Option<String> {
    let mut all = String::new(alloc);
    add_lines(alloc, trie, &mut all)?;
    Some(all)
}

/// Writes the text, as many bytes as fit. Returns how many there are.
fn write_text(text: &str, bytes: &mut [u8]) -> usize {
    for (place, byte) in bytes.iter_mut().zip(text.as_bytes().iter()) {
        *place = *byte;
    }
    text.len()
}

/// Writes the keys in unit order, each followed by a newline, as many bytes as fit. Returns how
/// many bytes there are, or 0 if the units cannot be read or an allocation fails.
#[unsafe(no_mangle)]
pub extern "C" fn ours_c16_keys(alloc: Global, units: &[u8], bytes: &mut [u8]) -> usize {
    let Ok(units) = ZeroVec::parse_bytes(units) else {
        return 0;
    };
    match joined_keys(alloc, &Char16Trie::new(units)) {
        Some(all) => write_text(&all, bytes),
        None => 0,
    }
}
