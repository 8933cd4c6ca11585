//! Tries that are built: functions that may allocate, and maps that are written to.

use crate::icu_invlist::codepointinvlist::CodePointInversionList;
use crate::icu_trie::cptrie::CodePointTrie;
use crate::icu_trie::header::TrieType;
use crate::icu_trie_builder::builder::CodePointTrieBuilder;
use crate::icu_trie_builder::error::BuildError;
use crate::icu_trie_builder::writes::{ApplyRefused, Write};
use crate::icu_zerovec::MemoryError;
use crate::memory::support::{expect, expect_same};
use crate::memory::tries::{
    are_same, build, builder_of, expect_number, expect_numbers, run_of, try_built, write_one,
    write_range,
};
use crate::refusals::{each_refused, none_asked, say};

// Functions that may allocate: writes, builds and copies.

/// A builder of a map of 0.
fn builder_of_nothing() -> CodePointTrieBuilder<u8> {
    builder_of(TrieType::Small, (0, 9))
}

/// Writes to code points in many blocks, in both halves of the code space.
static WRITES: [Write<u8>; 16] = [
    Write::One(0x41, 1),
    Write::One(0x10_FFFF, 2),
    Write::One(0x5000, 3),
    Write::One(0x5001, 1),
    Write::One(0xFFFF, 2),
    Write::One(0x1_0000, 3),
    Write::One(0x41, 0),
    Write::One(0x2_0345, 1),
    Write::One(0x3_0000, 2),
    Write::One(0x4_0777, 3),
    Write::One(0x5_0777, 1),
    Write::One(0x6_0001, 2),
    Write::One(0x6_0011, 3),
    Write::One(0x6_0021, 1),
    Write::One(0x8_00FF, 2),
    Write::One(0xE_01EF, 3),
];

/// Applies at most `count` writes one by one, up to the first that fails. Returns how many were
/// applied, and whether none failed.
fn write_each(
    builder: &mut CodePointTrieBuilder<u8>,
    writes: &[Write<u8>],
    most: usize,
) -> (usize, bool) {
    for (k, write) in writes.iter().take(most).enumerate() {
        let made = match write {
            Write::One(c, value) => write_one(builder, *c, *value),
            Write::Range(range, value) => {
                write_range(builder, *range.start()..=*range.end(), *value)
            }
        };
        if made.is_err() {
            return (k, false);
        }
    }
    (most, true)
}

/// Applies the writes as a list. Returns how many were applied, and whether none failed.
fn write_list(builder: &mut CodePointTrieBuilder<u8>, writes: &[Write<u8>]) -> (usize, bool) {
    match builder.apply(writes) {
        Ok(()) => (writes.len(), true),
        Err(ApplyRefused(place)) => (place, false),
    }
}

/// Checks that both builders build the same trie, if the allocations succeed.
fn expect_same_built(found: CodePointTrieBuilder<u8>, want: CodePointTrieBuilder<u8>) {
    if let (Ok(found), Ok(want)) = (build(found), build(want)) {
        let same = are_same(&found, &want);
        expect(same, "the writes before the refused one");
    }
}

/// Checks that a failed write leaves the map unchanged: it equals the map of a builder after only
/// the writes before.
fn expect_writes(writes: &[Write<u8>], is_list: bool) {
    let mut builder = builder_of_nothing();
    say("call");
    let (count, all) = if is_list {
        write_list(&mut builder, writes)
    } else {
        write_each(&mut builder, writes, writes.len())
    };
    say("done");
    if !all {
        say("refused");
    }
    let mut want = builder_of_nothing();
    let (_, all) = write_each(&mut want, writes, count);
    if all {
        expect_same_built(builder, want);
    }
}

/// Writes to code points, and to ranges that start and end inside blocks; then a list.
///
/// Calls: `CodePointTrieBuilder::try_set_value`, `CodePointTrieBuilder::try_set_range_value`,
/// `CodePointTrieBuilder::apply`.
#[test]
fn writes_refused() {
    each_refused(|| {
        expect_writes(&WRITES, false);
        let ranges = [
            Write::Range(0x41..=0x374, 1),
            Write::Range(0x10_FFFF..=0x11_0332, 2),
            Write::Range(0x5000..=0x5333, 3),
            Write::Range(0x5001..=0x5334, 1),
            Write::Range(0xFFFF..=0x1_0332, 2),
            Write::Range(0x41..=0x374, 0),
            Write::Range(0x6_0011..=0x6_0344, 3),
            Write::Range(0xE_01EF..=0xE_0522, 3),
        ];
        expect_writes(&ranges, false);
        expect_writes(&WRITES, true);
    });
}

/// A new builder allocates nothing. Neither do writes above the code points or to a reversed range,
/// which write nothing.
///
/// Calls: `CodePointTrieBuilder::new`, `CodePointTrieBuilder::try_set_value`,
/// `CodePointTrieBuilder::try_set_range_value`.
#[test]
fn ignored_writes_quiet() {
    none_asked(|| {
        let ignored = [
            Write::One(0x110000, 1),
            Write::Range(0x110000..=u32::MAX, 1),
            Write::Range(5..=3, 1),
        ];
        say("call");
        let mut builder = builder_of_nothing();
        let answer = write_each(&mut builder, &ignored, 3);
        say("done");
        expect_same(answer, (3, true), "ignored");
    });
}

/// Checks the trie with 1 at 0x41 and 2 at 0x10000. If an allocation failed, says `refused`.
fn expect_answer(answer: Result<CodePointTrie<'_, u8>, BuildError>) {
    match answer {
        Ok(trie) => {
            let expected = [(0x41, 1), (0x10000, 2), (0x10001, 0), (0x110000, 9)];
            expect_numbers(&trie, &expected);
        }
        Err(error) => {
            expect(error == BuildError::Memory, "the error");
            say("refused");
        }
    }
}

/// Writes whose trie also needs index-1, index-2 and index-3.
static BUILT: [Write<u8>; 2] = [Write::One(0x41, 1), Write::One(0x10000, 2)];

/// Builds from a list, and from a builder that already has its cells.
///
/// Calls: `codepointtrie::try_build_from_writes`, `CodePointTrieBuilder::try_build`.
#[test]
fn build_refused() {
    each_refused(|| {
        say("call");
        let answer = try_built(TrieType::Fast, (0, 9), &BUILT);
        say("done");
        expect_answer(answer);
        let mut builder = builder_of_nothing();
        let (_, all) = write_each(&mut builder, &BUILT, 2);
        if all {
            say("call");
            let answer = build(builder);
            say("done");
            expect_answer(answer);
        }
    });
}

/// Checks that the trie has 1 at 0x41.
fn expect_one(trie: &CodePointTrie<'_, u8>) {
    expect_numbers(trie, &[(0x41, 1), (0x42, 0), (0x110000, 9)]);
}

/// Checks a copy. If an allocation failed, says `refused`.
fn expect_copy(answer: Result<CodePointTrie<'_, u8>, MemoryError>) {
    match answer {
        Ok(copy) => expect_one(&copy),
        Err(MemoryError) => say("refused"),
    }
}

/// Checks the map with 1 at 0x41. If an allocation failed, says `refused`.
fn expect_map(answer: Result<CodePointTrieBuilder<u8>, MemoryError>) {
    match answer {
        Ok(builder) => expect(builder.get(0x41) == 1, "the map"),
        Err(MemoryError) => say("refused"),
    }
}

/// Checks the set of all code points except 0x41. If an allocation failed, says `refused`.
fn expect_others(answer: Result<CodePointInversionList<'_>, MemoryError>) {
    match answer {
        Ok(set) => {
            let held = [set.contains32(0x40), set.contains32(0x41)];
            expect_same(held, [true, false], "held");
        }
        Err(MemoryError) => say("refused"),
    }
}

/// A copy allocates its index and then its data. A map made from a trie allocates its blocks and
/// cells, and a set its boundaries. The trie is unchanged.
///
/// Calls: `CodePointTrie::try_clone`, `CodePointTrieBuilder::try_from_trie`,
/// `CodePointTrie::try_get_set_for_value`.
#[test]
fn copies_refused() {
    each_refused(|| {
        let writes = [Write::One(0x41, 1)];
        let Ok(trie) = try_built(TrieType::Small, (0, 9), &writes) else {
            return;
        };
        say("call");
        let copy = trie.try_clone();
        say("done");
        expect_copy(copy);
        say("call");
        let map = CodePointTrieBuilder::try_from_trie(&trie);
        say("done");
        expect_map(map);
        say("call");
        let set = trie.try_get_set_for_value(0);
        say("done");
        expect_others(set);
        expect_one(&trie);
    });
}

// Maps that are written to call by call, read back and built.

/// Writes 7 at a code point, 8 over it, over a reversed range, which writes nothing, and then a
/// list: 10 at one code point, 11 over the last 8, and 7 over the fast limit. Returns whether all
/// allocations succeeded.
fn write_amended(builder: &mut CodePointTrieBuilder<u16>) -> bool {
    let writes = [
        Write::One(0x20000, 10),
        Write::Range(0x1FFF..=0x2000, 11),
        Write::Range(0xFFC8..=0x1000F, 7),
    ];
    write_one(builder, 0x1234, 7).is_ok()
        && write_range(builder, 0x1000..=0x1FFF, 8).is_ok()
        && write_range(builder, 3..=2, 9).is_ok()
        && builder.apply(&writes).is_ok()
}

/// The last code point and the number of the range from a code point on.
fn end_and_number(builder: &CodePointTrieBuilder<u16>, start: u32) -> Option<(u32, u32)> {
    match builder.get_range(start) {
        Some(range) => {
            let (_, end, number) = run_of(&range);
            Some((end, number))
        }
        None => None,
    }
}

/// Code points, and the last code point and the number of the range from there on.
const RANGES: [(u32, Option<(u32, u32)>); 14] = [
    (0, Some((0xFFF, 5))),
    (0xFFF, Some((0xFFF, 5))),
    (0x1000, Some((0x1FFE, 8))),
    (0x1234, Some((0x1FFE, 8))),
    (0x1FFF, Some((0x2000, 11))),
    (0x2001, Some((0xFFC7, 5))),
    (0xFFD0, Some((0x1000F, 7))),
    (0x10000, Some((0x1000F, 7))),
    (0x10010, Some((0x1FFFF, 5))),
    (0x20000, Some((0x20000, 10))),
    (0x20001, Some((0x10FFFF, 5))),
    (0x10FFFF, Some((0x10FFFF, 5))),
    (0x110000, None),
    (0xFFFFFFFF, None),
];

/// Code points, and their numbers.
const NUMBERS: [(u32, u32); 18] = [
    (0, 5),
    (2, 5),
    (3, 5),
    (0xFFF, 5),
    (0x1000, 8),
    (0x1234, 8),
    (0x1FFE, 8),
    (0x1FFF, 11),
    (0x2000, 11),
    (0x2001, 5),
    (0xFFFF, 7),
    (0x10000, 7),
    (0x1FFFF, 5),
    (0x20000, 10),
    (0x20001, 5),
    (0x10FFFF, 5),
    (0x110000, 6),
    (0xFFFFFFFF, 6),
];

/// Checks the ranges of the map that was written to.
fn expect_written_ranges(builder: &CodePointTrieBuilder<u16>) {
    for (start, wanted) in RANGES {
        let found = end_and_number(builder, start);
        expect_same((start, found), (start, wanted), "a range");
    }
}

/// Checks the numbers of the map that was written to.
fn expect_written_numbers(builder: &CodePointTrieBuilder<u16>) {
    for (c, number) in NUMBERS {
        expect_number(c, u32::from(builder.get(c)), number);
    }
}

/// Values and ranges at the borders of what was written, and above the code space. Reading a map
/// allocates nothing, and its trie has the same values.
///
/// Calls: `CodePointTrieBuilder::get`, `CodePointTrieBuilder::get_range`.
#[test]
fn read_map_quiet() {
    none_asked(|| {
        let mut builder = builder_of(TrieType::Small, (5u16, 6));
        if !write_amended(&mut builder) {
            return;
        }
        say("call");
        expect_written_ranges(&builder);
        expect_written_numbers(&builder);
        say("done");
        if let Ok(trie) = build(builder) {
            expect_numbers(&trie, &NUMBERS);
        }
    });
}
