//! How tests make tries of parts, all getters of a trie, and tries that are made of parts and of other tries.

use crate::icu_trie::cptrie::CodePointTrie;
use crate::icu_trie::error::PartsError;
use crate::icu_trie::header::{CodePointTrieHeader, TrieType};
use crate::icu_trie::map_value::MapError;
use crate::icu_trie::ranges::CodePointMapRange;
use crate::icu_trie::value::TrieValue;
use crate::icu_trie::view::TrieView;
use crate::icu_trie_builder::builder::CodePointTrieBuilder;
use crate::icu_trie_builder::error::BuildError;
use crate::icu_trie_builder::try_build_from_writes;
use crate::icu_trie_builder::writes::Write;
use crate::icu_trie_formats::planes::get_planes_trie;
use crate::icu_zerovec::{MemoryError, ZeroVec};
use crate::memory::support::{expect, expect_same};
use crate::refusals::{each_refused, none_asked, say};
use core::fmt::Debug;
use core::ops::RangeInclusive;

// Tests of tries, built or made of their parts: examples with results from outside, user-defined
// packed values, headers that are wrong, values along texts, serialized forms, and failing
// allocations.

pub static ZEROS: [u8; 128] = [0; 128];

/// Checks that what was found at the code point `c` equals `want`.
pub fn expect_at<T: PartialEq + Debug>(found: T, want: T, c: u32) {
    expect_same((c, found), (c, want), "at a code point");
}

/// The header of a small trie without a null block.
pub fn small_header(high_start: u32, null_value: u32) -> CodePointTrieHeader {
    CodePointTrieHeader {
        high_start,
        shifted12_high_start: 1,
        index3_null_offset: 0x7fff,
        data_null_offset: 0xfffff,
        null_value,
        trie_type: TrieType::Small,
    }
}

/// Data of 64 equal cells, a high value and an error value.
pub type CellBytes = (u8, u8, u8);

pub const SEVENS: CellBytes = (7, 7, 9);

pub const ONES: CellBytes = (1, 2, 3);

/// The bytes of such data.
pub fn data((each, high, error): CellBytes) -> [u8; 66] {
    let mut data = [each; 66];
    data[64] = high;
    data[65] = error;
    data
}

/// The trie of these parts, or `None` if they are rejected.
fn lent_trie<'a, T: TrieValue>(
    header: CodePointTrieHeader,
    index: &'a [u8],
    data: &'a [u8],
) -> Option<CodePointTrie<'a, T>> {
    let index = ZeroVec::parse_bytes(index).ok()?;
    let data = ZeroVec::parse_bytes(data).ok()?;
    CodePointTrie::try_new(header, index, data).ok()
}

/// The trie of these parts, which it borrows.
pub fn trie_of<'a, T: TrieValue>(
    header: CodePointTrieHeader,
    index: &'a [u8],
    data: &'a [u8],
) -> CodePointTrie<'a, T> {
    lent_trie(header, index, data).expect("a trie")
}

/// A small trie of these parts, with this high start and null data offset. The null value is 0, and
/// no index-2 cell is the null one.
pub fn small_trie<'a>(
    (high_start, data_null_offset): (u32, u32),
    index: &'a [u8],
    data: &'a [u8],
) -> CodePointTrie<'a, u8> {
    let header = CodePointTrieHeader {
        data_null_offset,
        ..small_header(high_start, 0)
    };
    trie_of(header, index, data)
}

// Helpers for the tests: they build tries from writes and check them.

pub const BOTH: [TrieType; 2] = [TrieType::Fast, TrieType::Small];

/// Checks that the number found at this code point equals `wanted`.
pub fn expect_number(c: u32, found: u32, wanted: u32) {
    expect_same((c, found), (c, wanted), "a code point and its number");
}

/// The trie of these writes, or the error. `values` are the default and the error value.
pub fn try_built<T: TrieValue>(
    trie_type: TrieType,
    values: (T, T),
    writes: &[Write<T>],
) -> Result<CodePointTrie<'static, T>, BuildError> {
    try_build_from_writes(values.0, values.1, trie_type, writes)
}

/// A new builder. `values` are the default and the error value.
pub fn builder_of<T: TrieValue>(trie_type: TrieType, values: (T, T)) -> CodePointTrieBuilder<T> {
    CodePointTrieBuilder::new(values.0, values.1, trie_type)
}

/// Writes a value at a code point.
pub fn write_one<T: TrieValue>(
    builder: &mut CodePointTrieBuilder<T>,
    c: u32,
    value: T,
) -> Result<(), MemoryError> {
    builder.try_set_value(c, value)
}

/// Writes a value at each code point of a range.
pub fn write_range<T: TrieValue>(
    builder: &mut CodePointTrieBuilder<T>,
    range: RangeInclusive<u32>,
    value: T,
) -> Result<(), MemoryError> {
    builder.try_set_range_value(range, value)
}

/// The trie of what was written, or the error.
pub fn build<T: TrieValue>(
    builder: CodePointTrieBuilder<T>,
) -> Result<CodePointTrie<'static, T>, BuildError> {
    builder.try_build()
}

/// The number of the trie's value at a code point.
pub fn number_at<T: TrieValue>(trie: &CodePointTrie<'_, T>, c: u32) -> u32 {
    trie.get32(c).to_u32()
}

/// Checks that the values at these code points have these numbers.
pub fn expect_numbers<T: TrieValue>(trie: &CodePointTrie<'_, T>, expected: &[(u32, u32)]) {
    for (c, number) in expected {
        expect_number(*c, number_at(trie, *c), *number);
    }
}

/// The first and the last code point of a range, and the number of its value.
pub fn run_of<T: TrieValue>(range: &CodePointMapRange<T>) -> (u32, u32, u32) {
    (
        *range.range.start(),
        *range.range.end(),
        range.value.to_u32(),
    )
}

/// True if the two tries are equal.
pub fn are_same<T: TrieValue>(one: &CodePointTrie<'_, T>, other: &CodePointTrie<'_, T>) -> bool {
    one == other
}

// All getters of a trie, and its parts.

/// The results of the getters of a trie of characters.
fn answers_of(trie: &CodePointTrie<'_, char>) -> ([char; 10], [u32; 2]) {
    let characters = [
        trie.get('a'),
        trie.get('\u{10428}'),
        trie.get16(0x61),
        trie.get16(0xD800),
        trie.get16(0xFFFF),
        trie.get32_supplementary(0x10428),
        trie.get32_supplementary(0x10429),
        trie.get32(0x10428),
        trie.error_value(),
        trie.null_value(),
    ];
    (
        characters,
        [trie.get32_u32(0x10428), trie.get32_u32(0x110000)],
    )
}

/// The expected results.
const CHARACTERS: [char; 10] = [
    'A',
    '\u{10400}',
    'A',
    'B',
    '-',
    '\u{10400}',
    '-',
    '\u{10400}',
    '\u{FFFD}',
    '-',
];

/// The same results, of a view of the trie.
fn answers_of_view(trie: TrieView<'_, char>, null: char) -> ([char; 10], [u32; 2]) {
    let characters = [
        trie.get('a'),
        trie.get('\u{10428}'),
        trie.get16(0x61),
        trie.get16(0xD800),
        trie.get16(0xFFFF),
        trie.get32(0x10428),
        trie.get32(0x10429),
        trie.get32(0x10428),
        trie.error_value(),
        null,
    ];
    (
        characters,
        [trie.get32_u32(0x10428), trie.get32_u32(0x110000)],
    )
}

/// Checks that the getters return these, and says the lines for the check that they allocate
/// nothing.
fn expect_answers(trie: &CodePointTrie<'_, char>) {
    say("call");
    let (characters, numbers) = answers_of(trie);
    say("done");
    expect_same(characters, CHARACTERS, "characters");
    expect_same(numbers, [0x10400, 0xFFFD], "numbers");
    say("call");
    let (characters, numbers) = answers_of_view(trie.as_view(), '-');
    say("done");
    expect_same(characters, CHARACTERS, "characters of the view");
    expect_same(numbers, [0x10400, 0xFFFD], "numbers of the view");
}

/// A trie whose values are characters, as in a mapping to upper case.
///
/// Calls: `CodePointTrie::get`, `CodePointTrie::get16`, `CodePointTrie::get32_supplementary`,
/// `CodePointTrie::get32`, `CodePointTrie::error_value`, `CodePointTrie::null_value`,
/// `CodePointTrie::get32_u32`, `CodePointTrie::as_view`, `TrieView::get`, `TrieView::get16`,
/// `TrieView::get32`, `TrieView::get32_u32`, `TrieView::error_value`.
#[test]
fn each_getter_quiet() {
    none_asked(|| {
        let writes = [
            Write::One(0x61, 'A'),
            Write::One(0xD800, 'B'),
            Write::One(0x10428, '\u{10400}'),
        ];
        for trie_type in BOTH {
            if let Ok(trie) = try_built(trie_type, ('-', '\u{FFFD}'), &writes) {
                expect_answers(&trie);
            }
        }
    });
}

/// What a view of a view's parts returns: its blocks, whether it is coherent, the last code point of
/// its range from 0x20000 on, and the value there.
fn view_answers(view: TrieView<'_, u16>) -> Option<(usize, bool, u32, u16)> {
    let (header, index, data) = view.parts();
    let again = TrieView::try_new(header, index, data).ok()?;
    let range = again.get_range(0x20000)?;
    let last = *range.range.end();
    Some((again.fast_blocks(), again.is_coherent(), last, range.value))
}

/// Checks these of a trie with `blocks` blocks, and says the lines for the check that they allocate
/// nothing.
fn expect_view(trie: &CodePointTrie<'_, u16>, blocks: usize) {
    say("call");
    let found = view_answers(trie.as_view());
    say("done");
    expect_same(found, Some((blocks, true, 0x20000, 5)), "view");
}

/// A view of the parts of a view is the same one.
///
/// Calls: `TrieView::parts`, `TrieView::try_new`, `TrieView::get_range`, `TrieView::is_coherent`,
/// `TrieView::fast_blocks`.
#[test]
fn views_quiet() {
    none_asked(|| {
        let writes = [Write::One(0x20000, 5)];
        for (trie_type, blocks) in BOTH.into_iter().zip([1024, 64]) {
            if let Ok(trie) = try_built(trie_type, (0, 9), &writes) {
                expect_view(&trie, blocks);
            }
        }
    });
}

/// Whether the trie of this trie's parts, which it borrows, equals it, and its number at 0x20000.
fn lent_answers(trie: &CodePointTrie<'_, u16>) -> Option<(bool, u32)> {
    let (header, index, data) = trie.parts();
    match CodePointTrie::try_new(header, index.as_zerovec(), data.as_zerovec()) {
        Ok(lent) => Some((are_same(&lent, trie), number_at(&lent, 0x20000))),
        Err(_) => None,
    }
}

/// Checks that the trie of the parts is the same, and says the lines for the check that it
/// allocates nothing.
fn expect_lent(trie: &CodePointTrie<'_, u16>) {
    say("call");
    let found = lent_answers(trie);
    say("done");
    expect_same(found, Some((true, 5)), "lent");
}

/// A trie of the borrowed parts of another one equals it.
///
/// Calls: `CodePointTrie::parts`, `CodePointTrie::try_new`, `ZeroSlice::as_zerovec`.
#[test]
fn lent_parts_quiet() {
    none_asked(|| {
        let writes = [Write::One(0x20000, 5)];
        for trie_type in BOTH {
            if let Ok(trie) = try_built(trie_type, (0, 9), &writes) {
                expect_lent(&trie);
            }
        }
    });
}

// Tries that are made of copied parts.

/// Checks the trie of copied parts. If an allocation failed, checks the error and says `refused`.
fn expect_copied(made: Result<CodePointTrie<'static, u8>, PartsError>) {
    match made {
        Ok(trie) => expect_at(trie.get32(0xFFF), 7, 0xFFF),
        Err(error) => {
            expect_same(error, PartsError::Memory, "refused memory");
            say("refused");
        }
    }
}

/// Calls: `CodePointTrie::alloc_from_slices`.
#[test]
fn alloc_from_slices_refused() {
    each_refused(|| {
        say("call");
        let made = CodePointTrie::alloc_from_slices(small_header(0x1000, 0), &[0; 64], &[7; 66]);
        say("done");
        expect_copied(made);
    });
}

// Tries of mapped values.

/// The value plus 0x100.
fn higher(value: u8) -> Result<u16, u8> {
    Ok(u16::from(value) + 0x100)
}

/// The values of three code points, and the null value.
fn four_values(trie: CodePointTrie<'_, u16>) -> [u16; 4] {
    [
        trie.get32(0xFFF),
        trie.get32(0x1000),
        trie.get32(0x110000),
        trie.null_value(),
    ]
}

/// Checks that each value is 0x100 more than in the original trie. If an allocation failed, checks
/// the error and says `refused`.
fn expect_mapped(mapped: Result<CodePointTrie<'_, u16>, MapError<u8>>) {
    match mapped {
        Ok(mapped) => {
            let want = [0x101, 0x102, 0x103, 0x100];
            expect_same(four_values(mapped), want, "mapped values");
        }
        Err(error) => {
            expect_same(error, MapError::Memory, "refused memory");
            say("refused");
        }
    }
}

/// Calls: `CodePointTrie::try_alloc_map_value_fallible`.
#[test]
fn try_alloc_map_value_refused() {
    each_refused(|| {
        let ones = data(ONES);
        let trie = small_trie((0x1000, 0xfffff), &ZEROS, &ones);
        say("call");
        let mapped = trie.try_alloc_map_value_fallible(higher);
        say("done");
        expect_mapped(mapped);
        expect_at(trie.get32(0), 1, 0);
    });
}

// The trie of the planes.

/// Each code point has its plane as its value, and the index has 1168 cells of two bytes.
///
/// Calls: `planes::get_planes_trie`.
#[test]
fn planes_quiet() {
    none_asked(|| {
        say("call");
        let planes = get_planes_trie();
        for c in 0..0x11_0000_u32 {
            expect(u32::from(planes.get32(c)) == c >> 16, "a plane");
        }
        say("done");
        let (_, index, _) = planes.parts();
        let found = (planes.get32(0x11_0000), index.as_bytes().len());
        expect_same(found, (0, 2336), "past the last plane, and bytes");
    });
}
