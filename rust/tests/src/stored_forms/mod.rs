//! Stored forms of tries, sets and unit tries, damaged and read, and their functions called if they
//! are accepted; and the values along damaged texts.
//!
//! The damage comes from a fixed seed, so two runs with the same count do the same. The outcomes
//! are counted, and compared with those that the proved code counted in a program with these
//! modules.

mod sets;
mod tries;
mod units;

use crate::icu_trie::cptrie::CodePointTrie;
use crate::icu_trie_binary::binary::to_binary;
use crate::icu_trie_core::header::{CodePointTrieHeader, TrieType};
use crate::icu_trie_formats::planes::get_planes_trie;
use crate::icu_trie_formats::trie_toml::CodePointTrieToml;
use crate::icu_trie_text::text::values_of_utf8;
#[allow(unused_imports)]
use crate::runtime::*;
use crate::runtime::{Pcg32, table_from_str};
use crate::stored_forms::tries::{IcuForms, trie_table};
use crate::support::AllocError;
#[allow(unused_imports)]
use crate::support::prelude::*;
use crate::support::prelude::{String, Vec};
use core::fmt;
use serde_json::Value;
use std::path::{Path, PathBuf};

/// The folder of the stored forms.
fn folder() -> PathBuf {
    let top = std::env::var("REPOSITORY").expect("no REPOSITORY");
    Path::new(&top).join("tests/data/stored_forms")
}

/// The counts of the outcomes of `count` damaged forms.
fn counted(count: u32) -> std::string::String {
    let read = |file| std::fs::read_to_string(folder().join(file)).expect("no form");
    let texts: Vec<String> = FILES.into_iter().map(read).collect();
    let small = tries::stored_trie(&texts[0]).expect("no small trie");
    let fast = tries::stored_trie(&texts[1]).expect("no fast trie");
    let set = sets::stored_set(texts[3].as_bytes()).expect("no set");
    let icu = tries::icu_forms(&small, &fast, &set).expect("no forms of ICU's");
    let units = units::stored_units(texts[5].as_bytes()).expect("no unit trie");
    let ends = set.as_inversion_list();
    let stored = Stored {
        texts: &texts,
        small: &small,
        fast: &fast,
        ends: ends.as_bytes(),
        units: &units,
        icu: &icu,
    };
    let mut dice = Pcg32::new(0x1F600, 7);
    let mut counts = Counts::new();
    for number in 0..count {
        counts
            .add(stored.tried(&mut dice, number).expect("no memory"))
            .expect("no memory");
    }
    assert!(counts.is_well());
    std::format!("{counts}")
}

/// The counts for a thousand forms, and for a hundred thousand, are those of the proved code.
#[test]
fn damaged_forms() {
    let counts = std::fs::read_to_string(folder().join("counts")).expect("nothing to compare");
    for (count, proved) in [1000, 100_000].into_iter().zip(counts.lines()) {
        assert_eq!(counted(count), proved);
    }
}

// The stored forms, of which one is damaged in each turn.

/// The files of the stored forms that are texts: the tries that ICU builds of
/// `tests/data/excerpt/table.txt`, as `tests/gate/exported/export.c` writes them, and the first of them in
/// JSON; the first upper-case letters; the letters of Hungarian; and what ICU's builder writes for
/// six keys, each with a longer one.
pub const FILES: [&str; 6] = [
    "small_trie.toml",
    "fast_trie.toml",
    "small_trie.json",
    "set.json",
    "text_set.json",
    "units.json",
];

/// The JSON value of a text, or the outcome if there is none.
pub fn value_of(text: &[u8]) -> Result<Value, Outcome> {
    let Ok(text) = str::from_utf8(text) else {
        return Err(Outcome::Refused("UTF-8"));
    };
    match serde_json::from_str::<Value>(text) {
        Ok(value) => Ok(value),
        Err(_) => Err(Outcome::Refused("JSON")),
    }
}

/// The stored forms: texts, the tries that the first two describe, the packed boundaries of a set,
/// the units of a trie, and tries and a set as ICU writes them.
#[derive(Clone, Copy)]
pub struct Stored<'a> {
    pub texts: &'a [String],
    pub small: &'a CodePointTrie<'static, u8>,
    pub fast: &'a CodePointTrie<'static, u8>,
    pub ends: &'a [u8],
    pub units: &'a [u8],
    pub icu: &'a IcuForms,
}

impl<'a> Stored<'a> {
    /// A text, damaged.
    fn damaged_text(self, place: usize, dice: &mut Pcg32) -> Result<Vec<u8>, AllocError> {
        match self.texts.get(place) {
            Some(text) => damaged(text.as_bytes(), Form::Text, dice),
            None => Ok(Vec::new()),
        }
    }

    /// The outcome of reading a trie that is damaged.
    fn tried_trie(self, dice: &mut Pcg32, number: u32) -> Result<Outcome, AllocError> {
        match number % 8 {
            0 => Ok(tries::of_toml(&self.damaged_text(0, dice)?)),
            1 if number % 64 == 1 => Ok(tries::of_toml(&self.damaged_text(1, dice)?)),
            1 | 2 => Ok(tries::of_json(&self.damaged_text(2, dice)?)),
            3 => tries::tried_parts(&get_planes_trie(), dice),
            4 => tries::tried_parts(self.fast, dice),
            _ => tries::tried_parts(self.small, dice),
        }
    }

    /// The outcome of reading form number `number`, damaged.
    pub fn tried(self, dice: &mut Pcg32, number: u32) -> Result<Outcome, AllocError> {
        match number % 9 {
            0 => Ok(sets::of_json(&self.damaged_text(3, dice)?)),
            1 => Ok(sets::of_text_json(&self.damaged_text(4, dice)?)),
            2 => Ok(sets::of_bytes(&damaged(self.ends, Form::Packed, dice)?)),
            3 => Ok(units::of_json(&self.damaged_text(5, dice)?)),
            4 => Ok(units::of_bytes(&damaged(self.units, Form::Packed, dice)?)),
            5 => self.icu.tried(dice, number / 9),
            _ => self.tried_trie(dice, number / 9),
        }
    }
}

// Damage to bytes and to headers.

/// A random number below `count`, or 0 if `count` is 0.
pub fn below(dice: &mut Pcg32, count: usize) -> usize {
    let drawn = dice.next_u32() as usize;
    if count == 0 { 0 } else { drawn % count }
}

/// Flips one bit of the byte at an index.
fn flip(bytes: &mut Vec<u8>, place: usize, dice: &mut Pcg32) {
    let bit = 1u8.wrapping_shl(dice.next_u32());
    if let Some(byte) = bytes.get_mut(place) {
        *byte ^= bit;
    }
}

/// Replaces the byte at an index by the least, the greatest, or one beside the least or the middle.
fn put_extreme(bytes: &mut Vec<u8>, place: usize, dice: &mut Pcg32) {
    let extremes = [0, 1, 0x7F, 0x80, 0xFF];
    let extreme = extremes.get(below(dice, 5)).copied();
    if let Some(byte) = bytes.get_mut(place) {
        *byte = extreme.unwrap_or(0);
    }
}

/// Replaces the first decimal digit at or after an index.
fn change_digit(bytes: &mut Vec<u8>, place: usize, dice: &mut Pcg32) {
    let digits = b"0123456789";
    let digit = digits.get(below(dice, 10)).copied();
    for byte in bytes.iter_mut().skip(place) {
        if byte.is_ascii_digit() {
            *byte = digit.unwrap_or(b'0');
            return;
        }
    }
}

/// Exchanges the bytes at two indices.
fn exchange(bytes: &mut Vec<u8>, place: usize, other: usize) {
    let (Some(a), Some(b)) = (bytes.get(place).copied(), bytes.get(other).copied()) else {
        return;
    };
    if let Some(byte) = bytes.get_mut(place) {
        *byte = b;
    }
    if let Some(byte) = bytes.get_mut(other) {
        *byte = a;
    }
}

/// Doubles the bytes from an index up to the next comma, at most `width` of them.
fn double(bytes: &mut Vec<u8>, place: usize, width: usize) -> Result<(), AllocError> {
    let mut item = Vec::new();
    for byte in bytes.iter().skip(place).take(width) {
        item.try_push(*byte)?;
        if *byte == b',' {
            break;
        }
    }
    for byte in item.iter().rev() {
        if place <= bytes.len() {
            bytes.try_insert(place, *byte)?;
        }
    }
    Ok(())
}

/// How bytes are damaged.
#[derive(Clone, Copy, PartialEq, Eq)]
pub enum Form {
    /// As a text, mostly in its digits.
    Text,
    /// As packed cells, in any byte.
    Packed,
}

/// Damages the bytes once.
fn damage_once(bytes: &mut Vec<u8>, form: Form, dice: &mut Pcg32) -> Result<(), AllocError> {
    let place = below(dice, bytes.len());
    match below(dice, 8) {
        0 => bytes.truncate(place),
        1 => flip(bytes, place, dice),
        2 => exchange(bytes, place, below(dice, bytes.len())),
        3 | 4 => double(bytes, place, 1 + below(dice, 8))?,
        _ if form == Form::Text => change_digit(bytes, place, dice),
        5 => put_extreme(bytes, place, dice),
        _ => flip(bytes, place, dice),
    }
    Ok(())
}

/// A copy of the bytes, damaged one to three times.
pub fn damaged(bytes: &[u8], form: Form, dice: &mut Pcg32) -> Result<Vec<u8>, AllocError> {
    let mut copy = Vec::from_slice(bytes)?;
    for _ in 0..=below(dice, 3) {
        damage_once(&mut copy, form, dice)?;
    }
    Ok(copy)
}

/// A number at a limit of the format, or beside one.
fn extreme_number(dice: &mut Pcg32) -> u32 {
    let extremes = [
        0,
        1,
        6,
        0x1FF,
        0x200,
        0xFFF,
        0x1000,
        0x7FFF,
        0x8000,
        0xFFFF,
        0x1_0000,
        0x1_F800,
        0xF_FFFF,
        0x10_FE00,
        0x11_0000,
        0x11_0200,
        0x7FFF_FFFF,
        0xFFFF_FFFF,
    ];
    extremes.get(below(dice, 18)).copied().unwrap_or(0)
}

/// The header with one field changed, or two of them exchanged.
pub fn damaged_header(header: CodePointTrieHeader, dice: &mut Pcg32) -> CodePointTrieHeader {
    let mut damaged = header;
    match below(dice, 10) {
        0 => damaged.high_start = extreme_number(dice),
        1 => damaged.high_start = header.high_start.wrapping_add(0x200),
        2 => damaged.high_start = header.high_start.wrapping_sub(0x200),
        3 => damaged.index3_null_offset ^= 0x8000,
        4 => damaged.index3_null_offset = below(dice, 0x100) as u16,
        5 => damaged.data_null_offset = extreme_number(dice),
        6 => damaged.data_null_offset = below(dice, 0x200) as u32,
        7 => damaged.null_value = extreme_number(dice),
        8 => {
            (damaged.high_start, damaged.data_null_offset) =
                (header.data_null_offset, header.high_start)
        }
        _ => damaged.trie_type = other_type(header.trie_type),
    }
    damaged
}

/// The other type.
fn other_type(trie_type: TrieType) -> TrieType {
    match trie_type {
        TrieType::Fast => TrieType::Small,
        TrieType::Small => TrieType::Fast,
    }
}

// Outcomes of damaged forms, and how often each occurs.

/// The outcome of a damaged form.
#[derive(Clone, Copy, Debug, PartialEq, Eq)]
pub enum Outcome {
    /// It was accepted, and behaved as it has to.
    Taken,
    /// It was accepted as a coherent trie, and its ranges agreed with its look-ups.
    Coherent,
    /// It was rejected by an error of this name.
    Refused(&'static str),
    /// It was accepted, and this is wrong.
    Wrong(&'static str),
}

/// How often each outcome occurred.
pub struct Counts {
    taken: u32,
    coherent: u32,
    wrong: u32,
    refused: Vec<Refusals>,
}

/// How often an error occurred.
#[derive(Clone, Copy)]
struct Refusals {
    name: &'static str,
    count: u32,
}

impl Counts {
    /// The counts before anything was tried.
    pub fn new() -> Counts {
        Counts {
            taken: 0,
            coherent: 0,
            wrong: 0,
            refused: Vec::new(),
        }
    }

    /// Counts one more form with this outcome.
    pub fn add(&mut self, outcome: Outcome) -> Result<(), AllocError> {
        match outcome {
            Outcome::Taken => self.taken = self.taken.saturating_add(1),
            Outcome::Coherent => self.coherent = self.coherent.saturating_add(1),
            Outcome::Wrong(_) => self.wrong = self.wrong.saturating_add(1),
            Outcome::Refused(name) => add_refusal(&mut self.refused, name)?,
        }
        Ok(())
    }

    /// Whether no outcome was wrong, and forms were accepted both as coherent tries and otherwise.
    pub fn is_well(&self) -> bool {
        self.wrong == 0 && self.taken > 0 && self.coherent > 0
    }
}

/// Counts one more form that was rejected by the error of this name.
fn add_refusal(refused: &mut Vec<Refusals>, name: &'static str) -> Result<(), AllocError> {
    for refusals in refused.iter_mut() {
        if refusals.name == name {
            refusals.count = refusals.count.saturating_add(1);
            return Ok(());
        }
    }
    refused.try_push(Refusals { name, count: 1 })?;
    Ok(())
}

/// How many were rejected in all.
fn refused_in_all(refused: &[Refusals]) -> u32 {
    let mut all = 0u32;
    for refusals in refused {
        all = all.saturating_add(refusals.count);
    }
    all
}

impl fmt::Display for Counts {
    fn fmt(&self, f: &mut fmt::Formatter<'_>) -> fmt::Result {
        let refused = refused_in_all(&self.refused);
        let taken = self.taken.saturating_add(self.coherent);
        let (coherent, wrong) = (self.coherent, self.wrong);
        let tried = taken.saturating_add(refused).saturating_add(wrong);
        write!(
            f,
            "{tried} damaged forms tried, {wrong} wrong: {taken} taken, {coherent} of them as coherent tries, {refused} refused:"
        )?;
        for refusals in &self.refused {
            let (name, count) = (refusals.name, refusals.count);
            write!(f, " {name} {count}")?;
        }
        Ok(())
    }
}

// The values along a text by a trie of ICU's.
//
// The variable ALONG names a folder. Its file `trie.toml` is a trie as ICU's icuexportdata writes
// it, and its file `text` may be ill-formed UTF-8. The test writes the values along the bytes of
// `text` into `values`, four bytes each in little-endian order, and the trie in ICU's binary form
// into `trie.bin`. `rust/tests/run` has ICU compare them.

#[test]
fn values_along_damaged_texts() {
    let Ok(folder) = std::env::var("ALONG") else {
        return;
    };
    let folder = Path::new(&folder);
    let file = std::fs::read_to_string(folder.join("trie.toml")).expect("no file");
    let file = table_from_str(&file).expect("no TOML");
    let read =
        CodePointTrieToml::from_table(trie_table(&file).expect("no table")).expect("no trie");
    let trie = CodePointTrie::<u32>::try_from(&read).expect("no trie");
    let text = std::fs::read(folder.join("text")).expect("no text");
    let values: std::vec::Vec<u8> = values_of_utf8(&trie, &text)
        .flat_map(|(_, value)| value.to_le_bytes())
        .collect();
    std::fs::write(folder.join("values"), values).expect("not written");
    std::fs::write(folder.join("trie.bin"), to_binary(&trie).expect("no room"))
        .expect("not written");
}
