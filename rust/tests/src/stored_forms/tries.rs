//! Tries, and tries and sets in ICU's binary forms: by which error a damaged one is rejected, and whether
//! one that is accepted behaves as it has to.

use crate::icu_invlist::codepointinvlist::CodePointInversionList;
use crate::icu_invlist_binary::serialized::{from_serialized, to_serialized};
use crate::icu_trie::cptrie::CodePointTrie;
use crate::icu_trie::ranges::CodePointMapRange;
use crate::icu_trie_binary::binary::{
    AnyWidthTrie, from_binary, from_binary_any, from_binary_swapped, to_binary,
};
use crate::icu_trie_core::header::CodePointTrieHeader;
use crate::icu_trie_core::value::TrieValue;
use crate::icu_trie_formats::json::from_json;
use crate::icu_trie_formats::trie_toml::CodePointTrieToml;
use crate::icu_zerovec::ZeroVec;
#[allow(unused_imports)]
use crate::runtime::*;
use crate::stored_forms::sets::{
    by_binary, by_bytes, by_parts, by_serialized, by_swapped, by_table, by_table_parts,
    by_trie_json,
};
use crate::stored_forms::{Form, Outcome, below, damaged, damaged_header, sets, tries, value_of};
use crate::support::AllocError;
#[allow(unused_imports)]
use crate::support::prelude::*;
use toml::value::Table;

// Tries: by which error a damaged one is rejected, and whether one that is accepted behaves as it
// has to.

/// Code points on both sides of the limits in the format, and numbers above them.
const SAMPLE: [u32; 14] = [
    0,
    0x41,
    0x3FF,
    0xFFF,
    0x1000,
    0x1FFF,
    0xD7FF,
    0xFFFF,
    0x1_0000,
    0x1_F600,
    0x1_F800,
    0x10_FFFF,
    0x11_0000,
    0xFFFF_FFFF,
];

/// Whether all functions for the value of `c` agree.
fn is_asked_alike<T: TrieValue>(trie: &CodePointTrie<'_, T>, c: u32) -> bool {
    let value = trie.get32(c);
    let packed = match trie.get32_ule(c) {
        Some(bytes) => T::from_unaligned(bytes),
        None => Some(trie.error_value()),
    };
    let Some(packed) = packed else {
        return false;
    };
    packed == value && trie.get32_u32(c) == value.to_u32() && trie.get32_supplementary(c) == value
}

/// Whether the range starts at `start`, and ends within the code points.
fn follows<T: TrieValue>(range: &CodePointMapRange<T>, start: u32) -> bool {
    let (first, last) = (*range.range.start(), *range.range.end());
    first == start && first <= last && last < 0x11_0000
}

/// Whether look-ups return the value of the range at its first, middle and last code point.
fn is_as_looked_up<T: TrieValue>(
    trie: &CodePointTrie<'_, T>,
    range: &CodePointMapRange<T>,
) -> bool {
    let (first, last) = (*range.range.start(), *range.range.end());
    let middle = first.midpoint(last);
    trie.get32(first) == range.value
        && trie.get32(middle) == range.value
        && trie.get32(last) == range.value
}

/// What is wrong with the ranges of a trie. Those of a coherent one are the longest runs of equal
/// values.
fn fault_of_ranges<T: TrieValue>(
    trie: &CodePointTrie<'_, T>,
    is_coherent: bool,
) -> Option<&'static str> {
    let mut next = 0u32;
    let mut before: Option<T> = None;
    for range in trie.iter_ranges() {
        if !follows(&range, next) {
            return Some("a range that doesn't follow the one before it");
        }
        let is_longer = match before {
            Some(value) => value == range.value,
            None => false,
        };
        if is_coherent && (is_longer || !is_as_looked_up(trie, &range)) {
            return Some("a range that is no longest run of what look-ups answer");
        }
        next = range.range.end().saturating_add(1);
        before = Some(range.value);
    }
    if is_coherent && next != 0x11_0000 {
        return Some("ranges that end before the code points");
    }
    None
}

/// Whether the set contains those code points of the sample that have the value in the trie.
fn is_set_of<T: TrieValue>(
    set: &CodePointInversionList<'_>,
    trie: &CodePointTrie<'_, T>,
    value: T,
) -> bool {
    for c in SAMPLE {
        if set.contains32(c) != (c < 0x11_0000 && trie.get32(c) == value) {
            return false;
        }
    }
    true
}

/// What is wrong with the set of a value of a coherent trie.
fn fault_of_set<T: TrieValue>(trie: &CodePointTrie<'_, T>) -> Option<&'static str> {
    let value = trie.get32(0x41);
    match trie.try_get_set_for_value(value) {
        Ok(set) if is_set_of(&set, trie, value) => None,
        Ok(_) => Some("a set that is not that of the value"),
        Err(_) => Some("memory was refused"),
    }
}

/// The outcome of calling the functions of a trie.
pub fn asked<T: TrieValue>(trie: &CodePointTrie<'_, T>) -> Outcome {
    for c in SAMPLE {
        if !is_asked_alike(trie, c) {
            return Outcome::Wrong("look-ups that differ");
        }
    }
    let is_coherent = trie.is_coherent();
    if let Some(what) = fault_of_ranges(trie, is_coherent) {
        return Outcome::Wrong(what);
    }
    if !is_coherent {
        return Outcome::Taken;
    }
    match fault_of_set(trie) {
        None => Outcome::Coherent,
        Some(what) => Outcome::Wrong(what),
    }
}

/// The outcome of making a trie of these parts.
fn of_parts(header: CodePointTrieHeader, index: &[u8], data: &[u8]) -> Outcome {
    let index = match ZeroVec::parse_bytes(index) {
        Ok(index) => index,
        Err(error) => return by_bytes(error),
    };
    let data = match ZeroVec::<u8>::parse_bytes(data) {
        Ok(data) => data,
        Err(error) => return by_bytes(error),
    };
    match CodePointTrie::try_new(header, index, data) {
        Ok(trie) => asked(&trie),
        Err(error) => by_parts(error),
    }
}

/// The outcome of reading the packed parts of a trie, one of them damaged.
pub fn tried_parts(trie: &CodePointTrie<'_, u8>, dice: &mut Pcg32) -> Result<Outcome, AllocError> {
    let (header, index, data) = trie.parts();
    let (index, data) = (index.as_bytes(), data.as_bytes());
    Ok(match below(dice, 4) {
        0 => of_parts(header, &damaged(index, Form::Packed, dice)?, data),
        1 => of_parts(header, index, &damaged(data, Form::Packed, dice)?),
        _ => of_parts(damaged_header(header, dice), index, data),
    })
}

/// The outcome of reading a text as the JSON of a trie.
pub fn of_json(text: &[u8]) -> Outcome {
    let value = match value_of(text) {
        Ok(value) => value,
        Err(outcome) => return outcome,
    };
    match from_json::<u8>(&value) {
        Ok(trie) => asked(&trie),
        Err(error) => by_trie_json(error),
    }
}

/// The table of the first property's trie, in a file as ICU's `icuexportdata` writes it.
pub fn trie_table(file: &Table) -> Option<&Table> {
    let property = file.get("enum_property")?.as_array()?.first()?;
    property.as_table()?.get("code_point_trie")?.as_table()
}

/// The outcome of reading the trie that a table describes.
fn of_table(table: &Table) -> Outcome {
    let read = match CodePointTrieToml::from_table(table) {
        Ok(read) => read,
        Err(error) => return by_table(error),
    };
    match CodePointTrie::<u8>::try_from(&read) {
        Ok(trie) => asked(&trie),
        Err(error) => by_table_parts(error),
    }
}

/// The outcome of reading a text as the file of a trie in TOML.
pub fn of_toml(text: &[u8]) -> Outcome {
    let Ok(text) = str::from_utf8(text) else {
        return Outcome::Refused("UTF-8");
    };
    let Ok(file) = table_from_str(text) else {
        return Outcome::Refused("TOML");
    };
    match trie_table(&file) {
        Some(table) => of_table(table),
        None => Outcome::Refused("no table"),
    }
}

/// The trie in a file in TOML.
pub fn stored_trie(text: &str) -> Option<CodePointTrie<'static, u8>> {
    let file = table_from_str(text).ok()?;
    let read = CodePointTrieToml::from_table(trie_table(&file)?).ok()?;
    CodePointTrie::try_from(&read).ok()
}

// Tries and sets in ICU's binary forms: by which error a damaged one is rejected, and whether one
// that is accepted behaves as it has to.

/// How many bytes the header of a trie takes.
const HEADER_SIZE: usize = 16;

/// Tries and a set in ICU's binary forms.
pub struct IcuForms {
    /// The small trie.
    trie: Vec<u8>,
    /// The same, as a big-endian machine writes it.
    swapped: Vec<u8>,
    /// The fast trie with values of 32 bits.
    wide: Vec<u8>,
    /// The units of the set, in little-endian order.
    set: Vec<u8>,
}

/// The other byte order of a trie with values of one byte and an index of `cells` cells.
fn in_other_order(bytes: &[u8], cells: usize) -> Result<Vec<u8>, AllocError> {
    let mut swapped = Vec::new();
    swapped.try_extend_from_slice(b"3irT")?;
    let end = cells.saturating_mul(2).saturating_add(HEADER_SIZE);
    let numbers = bytes.get(swapped.len()..end).unwrap_or(&[]);
    for number in numbers.chunks_exact(2) {
        if let [low, high] = number {
            swapped.try_extend_from_slice(&[*high, *low])?;
        }
    }
    let values = bytes.get(swapped.len()..).unwrap_or(&[]);
    swapped.try_extend_from_slice(values)?;
    Ok(swapped)
}

/// The bytes of these units, in little-endian order.
fn unit_bytes(units: &[u16]) -> Result<Vec<u8>, AllocError> {
    let mut bytes = Vec::new();
    for unit in units.iter() {
        bytes.try_extend_from_slice(&unit.to_le_bytes())?;
    }
    Ok(bytes)
}

/// These tries and this set in ICU's binary forms. `None` if a form has no room for one, or if an
/// allocation fails.
pub fn icu_forms(
    small: &CodePointTrie<'_, u8>,
    fast: &CodePointTrie<'_, u8>,
    set: &CodePointInversionList<'_>,
) -> Option<IcuForms> {
    let trie = to_binary(small).ok()?;
    let (_, index, _) = small.parts();
    let swapped = in_other_order(&trie, index.len()).ok()?;
    let wide = fast.try_alloc_map_value(|v: u8| Ok::<u32, ()>(u32::from(v)));
    let wide = to_binary(&wide.ok()?).ok()?;
    let units = to_serialized(set).ok()?;
    let set = unit_bytes(&units).ok()?;
    Some(IcuForms {
        trie,
        swapped,
        wide,
        set,
    })
}

/// A copy of the bytes, damaged in the header or anywhere.
fn damaged_trie(bytes: &[u8], dice: &mut Pcg32) -> Result<Vec<u8>, AllocError> {
    match bytes.split_at_checked(HEADER_SIZE) {
        Some((header, rest)) if below(dice, 2) == 0 => {
            let mut copy = damaged(header, Form::Packed, dice)?;
            copy.try_extend_from_slice(rest)?;
            Ok(copy)
        }
        _ => damaged(bytes, Form::Packed, dice),
    }
}

/// The outcome of reading bytes as a trie.
fn of_trie(bytes: &[u8]) -> Outcome {
    match from_binary::<u8>(bytes) {
        Ok((trie, _)) => asked(&trie),
        Err(error) => by_binary(error),
    }
}

/// The outcome of reading bytes as a trie of a machine with the other byte order.
fn of_swapped(bytes: &[u8]) -> Outcome {
    match from_binary_swapped::<u8>(bytes) {
        Ok((trie, _)) => asked(&trie),
        Err(error) => by_swapped(error),
    }
}

/// The outcome of reading bytes as a trie of any width.
fn of_any_width(bytes: &[u8]) -> Outcome {
    match from_binary_any(bytes) {
        Ok((AnyWidthTrie::Bits8(trie), _)) => asked(&trie),
        Ok((AnyWidthTrie::Bits16(trie), _)) => asked(&trie),
        Ok((AnyWidthTrie::Bits32(trie), _)) => asked(&trie),
        Err(error) => by_binary(error),
    }
}

/// The outcome of reading bytes as the units of a serialized set. An odd byte at the end is
/// ignored.
fn of_set(bytes: &[u8]) -> Result<Outcome, AllocError> {
    let mut units = Vec::new();
    for pair in bytes.chunks_exact(2) {
        if let [low, high] = pair {
            units.try_push(u16::from_le_bytes([*low, *high]))?;
        }
    }
    Ok(match from_serialized(&units) {
        Ok((set, _)) => sets::asked(&set),
        Err(error) => by_serialized(error),
    })
}

impl IcuForms {
    /// The outcome of reading form number `number`, damaged.
    pub fn tried(&self, dice: &mut Pcg32, number: u32) -> Result<Outcome, AllocError> {
        match number % 4 {
            0 => Ok(of_trie(&damaged_trie(&self.trie, dice)?)),
            1 => Ok(of_swapped(&damaged_trie(&self.swapped, dice)?)),
            2 => Ok(of_any_width(&damaged_trie(&self.wide, dice)?)),
            _ => of_set(&damaged(&self.set, Form::Packed, dice)?),
        }
    }
}
