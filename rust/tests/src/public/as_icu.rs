//! Unit tries and serialized sets, compared with ICU4C: the units that can come next and the unique
//! value for prefixes of keys; sets as ICU writes them, and damaged ones as it reads them.
//!
//! The folder that the variable ICU_ROWS names has ICU's results, in the files that
//! `tests/gate/exported/unit_tries.cpp` and `tests/gate/exported/sets.cpp` write and describe. Each
//! test writes how many it compared to a file beside them, which `rust/tests/run` prints.

use bekstaudi::char16trie::Char16Trie;
use bekstaudi::codepointinvlist::CodePointInversionList;
use bekstaudi::codepointinvlist::serialized::{
    SerializeError, SerializedSetError, WriteError, from_serialized, serialized_len, to_serialized,
    write_serialized,
};
use std::path::PathBuf;

/// Returns the path of a file of ICU's results, or `None` if there are none.
fn path_of(name: &str) -> Option<PathBuf> {
    std::env::var("ICU_ROWS").ok().map(|folder| PathBuf::from(folder).join(name))
}

/// Returns the numbers in a file.
fn numbers_in(path: PathBuf) -> Vec<u16> {
    let bytes = std::fs::read(path).expect("no rows");
    bytes.as_chunks().0.iter().map(|pair| u16::from_ne_bytes(*pair)).collect()
}

/// Writes how many rows a test compared.
fn report(name: &str, text: String) {
    let path = path_of(&format!("{name}.compared")).expect("no folder");
    std::fs::write(path, text).expect("not written");
}

/// The numbers that are not read yet.
struct Rows<'a>(&'a [u16]);

impl<'a> Rows<'a> {
    /// Reads so many numbers.
    fn take(&mut self, count: usize) -> &'a [u16] {
        let (taken, left) = self.0.split_at(count);
        self.0 = left;
        taken
    }

    /// Reads a number of 16 bits that is 0 or 1.
    fn flag(&mut self) -> bool {
        let number = self.take(1)[0];
        assert!(number < 2);
        number == 1
    }

    /// Reads a number of 32 bits.
    fn number(&mut self) -> u32 {
        let halves = self.take(2);
        u32::from(halves[0]) + u32::from(halves[1]) * 0x1_0000
    }

    /// Reads units and their number.
    fn units(&mut self) -> &'a [u16] {
        let count = self.number() as usize;
        self.take(count)
    }

    /// Reads the boundaries of a set and their number.
    fn boundaries(&mut self) -> Vec<u32> {
        (0..self.number()).map(|_| self.number()).collect()
    }

    /// Reads the value that all keys have, if they have one.
    fn value(&mut self) -> Option<i32> {
        self.flag().then(|| self.number().cast_signed())
    }
}

/// A prefix, and what comes after it.
#[derive(Debug)]
struct Prefix<'a> {
    units: &'a [u16],
    next_units: &'a [u16],
    by_icu: Option<i32>,
    by_entries: Option<i32>,
}

impl<'a> Prefix<'a> {
    fn read(rows: &mut Rows<'a>) -> Self {
        let (units, next_units) = (rows.units(), rows.units());
        Prefix { units, next_units, by_icu: rows.value(), by_entries: rows.value() }
    }

    /// Compares what the trie returns. The expected value is the entries': ICU's is wrong if it
    /// differs.
    fn compare(&self, trie: &Char16Trie<'_>) {
        let mut cursor = trie.cursor();
        for unit in self.units {
            cursor.step16(*unit);
        }
        assert_eq!(cursor.next_units(), self.next_units, "{self:?}");
        assert_eq!(cursor.unique_value(), self.by_entries, "{self:?}");
    }
}

/// Compares the first trie's empty prefix. The keys a, b and c have the value 1, and d, e and f the
/// value 2, so no value is unique. ICU 72 returns 2: it forgets the lower half of the branch.
fn compare_forgotten_half(prefix: &Prefix<'_>, version: u16) {
    let next_units: Vec<u16> = "abcdef".encode_utf16().collect();
    assert_eq!((prefix.units, prefix.next_units), (&[][..], &next_units[..]));
    assert_eq!(prefix.by_entries, None);
    assert!(version != 72 || prefix.by_icu == Some(2));
}

#[test]
fn unit_tries() {
    let Some(path) = path_of("unit_tries.rows") else { return };
    let numbers = numbers_in(path);
    let mut rows = Rows(&numbers);
    let version = rows.take(1)[0];
    let tries = rows.number();
    let (mut prefixes, mut unique, mut wrong) = (0, 0, 0);
    for number in 0..tries {
        let trie = Char16Trie::new(rows.units().iter().copied().collect());
        for index in 0..rows.number() {
            let prefix = Prefix::read(&mut rows);
            if (number, index) == (0, 0) {
                compare_forgotten_half(&prefix, version);
            }
            prefix.compare(&trie);
            prefixes += 1;
            unique += u32::from(prefix.by_entries.is_some());
            wrong += u32::from(prefix.by_icu != prefix.by_entries);
        }
    }
    assert!(rows.0.is_empty() && prefixes >= 100_000);
    let text = format!(
        "{prefixes} prefixes in {tries} of ICU's unit tries: next units as ICU returns them, and \
         unique values ({unique}) too, but for {wrong} prefixes at which ICU {version} is wrong"
    );
    report("unit_tries", text);
}

/// Compares the serialized form of the set with these boundaries. ICU's is `None` if it is too
/// long.
fn compare_written(boundaries: &[u32], by_icu: Option<&[u16]>) {
    let set = CodePointInversionList::try_from_u32_inversion_list_slice_fallible(boundaries);
    let set = set.expect("no set");
    let Some(units) = by_icu else {
        assert_eq!(to_serialized(&set), Err(SerializeError::TooLong));
        assert_eq!(write_serialized(&set, &mut [7; 0x8002]), Err(WriteError::TooLong));
        assert_eq!(serialized_len(&set), None);
        return;
    };
    assert_eq!(to_serialized(&set).as_deref(), Ok(units));
    assert_eq!(serialized_len(&set), Some(units.len()));
    let mut target = vec![7; units.len()];
    assert_eq!(write_serialized(&set, &mut target[1..]), Err(WriteError::Short));
    assert_eq!(write_serialized(&set, &mut target), Ok(units.len()));
    assert_eq!(target, units);
    assert_eq!(from_serialized(units), Ok((set, units.len())));
}

/// Returns whether boundaries are a set's: strictly ascending, and at most 0x110000.
fn are_of_a_set(boundaries: &[u32]) -> bool {
    boundaries.is_sorted_by(|one, next| one < next)
        && boundaries.last().is_none_or(|last| *last <= 0x11_0000)
}

/// How many damaged sets had each result.
#[derive(Default)]
struct Reads {
    sets: u32,
    short: u32,
    count: u32,
    invalid: u32,
}

impl Reads {
    /// Reads damaged units, compares the result with ICU's, and counts it. ICU reads counts that do
    /// not fit and boundaries that are no set's, which are errors here.
    fn compare(&mut self, rows: &mut Rows<'_>) {
        let read = from_serialized(rows.units());
        if !rows.flag() {
            assert_eq!(read, Err(SerializedSetError::Short));
            self.short += 1;
            return;
        }
        let length = rows.number() as usize;
        if !rows.flag() {
            assert_eq!(read, Err(SerializedSetError::Count));
            self.count += 1;
            return;
        }
        let boundaries = rows.boundaries();
        if are_of_a_set(&boundaries) {
            let (set, taken) = read.expect("a set that ICU reads");
            assert_eq!((set.get_inversion_list_vec(), taken), (boundaries, length));
            self.sets += 1;
        } else {
            assert_eq!(read, Err(SerializedSetError::Invalid));
            self.invalid += 1;
        }
    }
}

#[test]
fn sets() {
    let Some(path) = path_of("sets.rows") else { return };
    let numbers = numbers_in(path);
    let mut rows = Rows(&numbers);
    let count = rows.number();
    let (mut reads, mut too_long) = (Reads::default(), 0);
    for _ in 0..count {
        let boundaries = rows.boundaries();
        let units = rows.flag().then(|| rows.units());
        compare_written(&boundaries, units);
        if units.is_some() {
            reads.compare(&mut rows);
        } else {
            too_long += 1;
        }
    }
    assert!(rows.0.is_empty() && count >= 50_000 && too_long > 0);
    let Reads { sets, short, count: counts, invalid } = reads;
    assert!(sets > 1_000 && short > 1_000 && counts > 1_000 && invalid > 1_000);
    let text = format!(
        "{count} sets as ICU writes them ({too_long} too long for both); damaged ones as ICU reads \
         them: {sets} sets, {short} cut off; and errors here only: {counts} with counts that do \
         not fit, {invalid} with boundaries of no set"
    );
    report("sets", text);
}
