//! The program `ucptab`, translated: what it prints of whole tables, and of the streams that
//! `tests/gate/ucptab` gives the proved one. `tests/gate/command_lines` has all other rows.

use crate::runtime::*;
use crate::support::prelude::*;
use crate::ucptab_table::error::RowError;
use crate::ucptab_table::run_words;
use crate::ucptab_table::streams::{Failed, Sink, Source};
use std::format;
use std::path::{Path, PathBuf};

/// A table of which a read returns up to `most` bytes, and fails if `most` is 0.
struct Input<'a> {
    rest: &'a [u8],
    most: usize,
}

impl Source for Input<'_> {
    fn read(&mut self, buf: &mut [u8]) -> Result<usize, Failed> {
        if self.most == 0 {
            return Err(Failed);
        }
        let count = self.rest.len().min(buf.len()).min(self.most);
        let (front, rest) = self.rest.split_at(count);
        buf[..count].copy_from_slice(front);
        self.rest = rest;
        Ok(count)
    }

    fn note_fault(&mut self, _number: u64, _line: &[u8], _fault: RowError) {}
}

/// What was written. A write fails if it is full.
struct Output {
    bytes: Vec<u8>,
    is_full: bool,
}

impl Sink for Output {
    fn write(&mut self, buf: &[u8]) -> Result<(), Failed> {
        if self.is_full {
            return Err(Failed);
        }
        self.bytes.extend_from_slice(buf);
        Ok(())
    }
}

/// The status of the program, and what it printed.
fn ran(words: &str, input: Input<'_>, is_full: bool) -> (u8, Vec<u8>) {
    let words: Vec<String> = words.split(' ').map(String::from).collect();
    let (mut input, mut output) = (input, Output { bytes: Vec::new(), is_full });
    let status = run_words(&words, &mut input, &mut output);
    (status, output.bytes)
}

/// Expects that the program prints this of a table, with status 0.
fn expect_printed(words: &str, table: &[u8], most: usize, want: &[u8]) {
    let (status, bytes) = ran(words, Input { rest: table, most }, false);
    assert_eq!(status, 0, "{words}");
    assert!(bytes == want, "{words}: other lines");
}

/// Expects that both types of trie print these ranges.
fn compare(table: &Path, ranges: &Path) {
    let (table, ranges) = (std::fs::read(table), std::fs::read(ranges));
    let (table, ranges) = (table.expect("no table"), ranges.expect("no ranges"));
    for kind in ["fast", "small"] {
        expect_printed(&format!("{kind} 0 255"), &table, 4096, &ranges);
    }
}

/// Compares each table of a folder with the ranges beside it, and returns how many there are.
fn compare_all(folder: &Path) -> usize {
    let mut compared = 0;
    for entry in std::fs::read_dir(folder).expect("no tables") {
        let path = entry.expect("no entry").path();
        let name = path.to_str().expect("no name");
        if let Some(name) = name.strip_suffix(".runs.txt") {
            compare(Path::new(&format!("{name}.txt")), &path);
            compared += 1;
        }
    }
    compared
}

#[test]
fn all_tables() {
    let top = PathBuf::from(std::env::var("REPOSITORY").expect("no REPOSITORY"));
    let excerpt = top.join("tests/data/excerpt");
    compare(&excerpt.join("table.txt"), &excerpt.join("ranges.txt"));
    assert_eq!((compare_all(&top.join("data")), compare_all(&top.join("tests/data"))), (1, 1));
    if let Ok(folder) = std::env::var("TABLES") {
        assert!(compare_all(Path::new(&folder)) > 0, "no tables in {folder}");
    }
}

#[test]
fn streams() {
    expect_printed(
        "fast 0 9 0041 005B 110000",
        b"0041..005A;1\n",
        99,
        b"0041;1\n005B;0\n110000;9\n",
    );
    for most in 1..9 {
        expect_printed("small 0 9 41 42", b"0041;7", most, b"0041;7\n0042;0\n");
    }
    let failing = Input { rest: b"", most: 0 };
    assert_eq!(ran("fast 0 9 41", failing, false), (1, b"read fault\n".to_vec()));
    let table = Input { rest: b"0041;1\n", most: 99 };
    assert_eq!(ran("fast 0 9 41", table, true), (1, Vec::new()));
    let ranges = b"0000..0040;0\n0041..005A;1\n005B..10FFFF;0\n";
    expect_printed("fast 0 9", b"0041..005A;1\n", 99, ranges);
    let usage = b"usage: ucptab fast|small DEFAULT ERROR [HEX ..]\n";
    let empty = Input { rest: b"", most: 99 };
    assert_eq!(ran("fast 0", empty, false), (2, usage.to_vec()));
}

/// Rows with a value of their own at every sixteenth code point. Every hundredth of them is looked
/// up.
#[test]
fn ten_thousand_blocks() {
    let row = |i: u32| format!("{:X};{}\n", 0x1_0000 + 16 * i, i + 1);
    let table: String = (0..10_000).map(row).collect();
    let answers: String = (0..10_000).step_by(100).map(row).collect();
    let asked = (0..10_000u32).step_by(100).map(|i| format!(" {:X}", 0x1_0000 + 16 * i));
    let words = format!("fast 0 9{}", asked.collect::<String>());
    expect_printed(&words, table.as_bytes(), 4096, answers.as_bytes());
}
