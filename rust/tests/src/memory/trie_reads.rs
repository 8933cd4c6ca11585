//! Reads of tries, which allocate nothing: ranges and typed tries, headers that are wrong, and how many cells are read.

use crate::icu_trie::cells::Cells;
use crate::icu_trie::coherent::is_coherent;
use crate::icu_trie::cptrie::CodePointTrie;
use crate::icu_trie::iterator_utils::RangeListIteratorCoalescer;
use crate::icu_trie::lookup::{look_up, look_up_whole};
use crate::icu_trie::ranges::CodePointMapRange;
use crate::icu_trie::typed::{
    FastCodePointTrie, SmallCodePointTrie, Typed, TypedCodePointTrie, Untyped,
};
use crate::icu_trie::value::TrieValue;
use crate::icu_trie::walk::walk;
use crate::icu_trie_core::header::{CodePointTrieHeader, TrieType};
use crate::icu_zerovec::ZeroSlice;
use crate::memory::support::expect_same;
use crate::memory::tries::{
    CellBytes, ONES, SEVENS, ZEROS, data, expect_at, small_header, small_trie, trie_of,
};
use crate::refusals::{none_asked, say};

// Functions that allocate nothing: reads of a trie's ranges and of typed tries, and conversions.

/// The trie with 1 below 0x1000, 2 from there on, and the error value 3.
fn trie_of_two<'a>(cells: &'a [u8; 66]) -> CodePointTrie<'a, u8> {
    trie_of(small_header(0x1000, 1), &ZEROS, cells)
}

/// Calls: `TrieType::fast_limit`, `TrieType::fast_index_len`.
#[test]
fn fast_indices_quiet() {
    none_asked(|| {
        say("call");
        let (fast, small) = (TrieType::Fast, TrieType::Small);
        let limits = (fast.fast_limit(), small.fast_limit());
        let lengths = (fast.fast_index_len(), small.fast_index_len());
        say("done");
        let want = ((0x10000, 0x1000), (1024, 64));
        expect_same((limits, lengths), want, "limits, and cells");
    });
}

/// Maps every value to 7.
fn seven(_value: u8) -> u8 {
    7
}

/// The number of ranges with the value 2, of ranges if all values are mapped to one, and of ranges
/// after joining.
fn ranges_of(trie: CodePointTrie<'_, u8>) -> [usize; 3] {
    [
        trie.iter_ranges_for_value(2).count(),
        trie.iter_ranges_mapped(seven).count(),
        RangeListIteratorCoalescer::new(trie.iter_ranges()).count(),
    ]
}

/// Calls: `CodePointTrie::iter_ranges_for_value`, `IterRangesForValue::next`,
/// `CodePointTrie::iter_ranges_mapped`, `IterRangesMapped::next`,
/// `RangeListIteratorCoalescer::new`, `RangeListIteratorCoalescer::next`.
#[test]
fn ranges_quiet() {
    none_asked(|| {
        let cells = data(ONES);
        say("call");
        let ranges = ranges_of(trie_of_two(&cells));
        say("done");
        expect_same(ranges, [1, 1, 2], "ranges");
    });
}

/// The reads of a typed trie: its values, and the values by its fast index.
type TypedReads = ([u8; 4], u32, [Option<u8>; 2]);

/// The values of a typed trie by its fast index: at 0x41, and at the first code point after it.
fn fast_reads<'a, X: TypedCodePointTrie<'a, u8>>(trie: &X, past: u32) -> [Option<u8>; 2] {
    [
        trie.get32_by_fast_index(0x41),
        trie.get32_by_fast_index(past),
    ]
}

/// The reads of a typed trie. `past` is the first code point after its fast index.
fn typed_reads<'a, X: TypedCodePointTrie<'a, u8>>(trie: &X, past: u32) -> TypedReads {
    let values = [
        trie.get32(0x1000),
        trie.get('A'),
        trie.get16(0x42),
        trie.get32_supplementary(0x1_0000),
    ];
    (values, trie.get32_u32(0x41), fast_reads(trie, past))
}

/// The value of the small trie at 0x1000, through a typed trie that borrows it.
fn lent_value(trie: &CodePointTrie<'_, u8>) -> u8 {
    match trie.as_typed_ref() {
        Typed::Small(small) => small.into_untyped().get32(0x1000),
        Typed::Fast(_) => 0,
    }
}

/// The value of the small trie at 0x1000, through `SmallCodePointTrie::try_from`, and its reads.
fn small_values(trie: &CodePointTrie<'_, u8>) -> Option<(u8, TypedReads)> {
    match SmallCodePointTrie::try_from(trie) {
        Ok(small) => Some((
            small.untyped_ref().get32(0x1000),
            typed_reads(&small, 0x1000),
        )),
        Err(_) => None,
    }
}

/// The value of a trie at 0x1000, through `to_typed`, and whether it is not a fast trie.
fn told_value(trie: CodePointTrie<'_, u8>) -> (u8, bool) {
    let refused = FastCodePointTrie::try_from(&trie).is_err();
    match trie.to_typed() {
        Typed::Small(small) => (small.get32(0x1000), refused),
        Typed::Fast(fast) => (fast.get32(0x1000), refused),
    }
}

/// Calls: `CodePointTrie::as_typed_ref`, `CodePointTrie::to_typed`, `SmallCodePointTrie::try_from`,
/// `Untyped::untyped_ref`, `Untyped::into_untyped`,
/// `TypedCodePointTrie::get32`, `TypedCodePointTrie::get`, `TypedCodePointTrie::get16`,
/// `TypedCodePointTrie::get32_supplementary`, `TypedCodePointTrie::get32_u32`,
/// `TypedCodePointTrie::get32_by_fast_index`.
#[test]
fn typed_tries_quiet() {
    none_asked(|| {
        let cells = data(ONES);
        say("call");
        let trie = trie_of_two(&cells);
        let lent = lent_value(&trie);
        let small = small_values(&trie);
        let told = told_value(trie);
        say("done");
        let reads = ([2, 1, 1, 2], 1, [Some(1), None]);
        let want = (Some((2, reads)), (2, 2, true));
        expect_same((small, (lent, told.0, told.1)), want, "a small trie");
    });
}

/// The value of a fast trie at 0x41, through a borrowed and an owned fast trie, its reads, and
/// whether it is not a small trie.
fn fast_values(trie: CodePointTrie<'_, u8>) -> Option<(u8, u8, TypedReads, bool)> {
    let refused = SmallCodePointTrie::try_from(&trie).is_err();
    let (lent, reads) = match FastCodePointTrie::try_from(&trie) {
        Ok(fast) => (
            fast.as_untyped_ref().get32(0x41),
            typed_reads(&fast, 0x10000),
        ),
        Err(_) => return None,
    };
    let fast = FastCodePointTrie::try_from(trie).ok()?;
    Some((lent, fast.to_untyped().get32(0x41), reads, refused))
}

/// Calls: `FastCodePointTrie::try_from`, `TypedCodePointTrie::as_untyped_ref`,
/// `TypedCodePointTrie::to_untyped`.
#[test]
fn fast_tries_quiet() {
    none_asked(|| {
        let header = CodePointTrieHeader {
            trie_type: TrieType::Fast,
            ..small_header(0, 1)
        };
        let (index, cells) = ([0; 2048], data(ONES));
        say("call");
        let values = fast_values(trie_of(header, &index, &cells));
        say("done");
        let reads = ([1, 1, 1, 2], 1, [Some(1), None]);
        expect_same(values, Some((1, 1, reads, true)), "a fast trie");
        let types = (
            FastCodePointTrie::<'static, u8>::TRIE_TYPE,
            SmallCodePointTrie::<'static, u8>::TRIE_TYPE,
        );
        expect_same(types, (TrieType::Fast, TrieType::Small), "the types");
    });
}

/// The value at 0x41 of the trie as a trie of signed numbers.
fn signed_value(trie: CodePointTrie<'_, u8>) -> Option<i8> {
    let signed = trie.try_into_converted_explained::<i8>().ok()?;
    Some(signed.get32(0x41))
}

/// Calls: `CodePointTrie::try_into_converted_explained`, `TrieValue::to_u32`,
/// `TrieValue::try_from_u32`.
#[test]
fn conversions_quiet() {
    none_asked(|| {
        let cells = data(ONES);
        say("call");
        let signed = signed_value(trie_of_two(&cells));
        let numbers = ((-1_i8).to_u32(), i8::try_from_u32(7).ok());
        say("done");
        let want = (Some(1), (u32::MAX, Some(7)));
        expect_same((signed, numbers), want, "a trie, and numbers");
    });
}

// Tries whose header may be wrong: which of them are coherent, and what the others return.

/// A question to a trie, with the expected result.
enum Asked {
    /// Whether the trie is coherent.
    Coherent(bool),
    /// The number of ranges from 0 on.
    Ranges(usize),
    /// The value of a code point, which is also the packed byte of its cell.
    Value(u32, u8),
    /// The range from a code point on, if any: its first and its last code point, and its value.
    Range(u32, Option<(u32, u32, u8)>),
}

/// Headers with this high start and null data offset, each with an index of zeros and these data,
/// and the expected result.
static HEADERS: [((u32, u32), CellBytes, Asked); 38] = [
    // These headers are right.
    ((0x1000, 0xfffff), SEVENS, Asked::Coherent(true)),
    ((0x1000, 0xfffff), ONES, Asked::Coherent(true)),
    ((0, 0xfffff), SEVENS, Asked::Coherent(true)),
    ((0x200, 0xfffff), SEVENS, Asked::Coherent(true)),
    ((0x1000, 0), (0, 7, 9), Asked::Coherent(true)),
    // The high start is not a multiple of 512, or it is above 0x110000.
    ((0x1001, 0xfffff), SEVENS, Asked::Coherent(false)),
    ((0xFFFF_FFFF, 0xfffff), SEVENS, Asked::Coherent(false)),
    ((0x11_0200, 0xfffff), SEVENS, Asked::Coherent(false)),
    // The null block has other values.
    ((0x1000, 0), SEVENS, Asked::Coherent(false)),
    // CellBytes of the index are missing.
    ((0x1200, 0xfffff), SEVENS, Asked::Coherent(false)),
    ((0x2000, 0xfffff), ONES, Asked::Coherent(false)),
    // The fast index continues above the high start with another value.
    ((0xE00, 0xfffff), ONES, Asked::Coherent(false)),
    ((0, 0xfffff), ONES, Asked::Coherent(false)),
    // If a header claims more code points than there are cells, look-ups return the error value and
    // do not panic.
    ((0x1000, 0xfffff), SEVENS, Asked::Value(0, 7)),
    ((0x1000, 0xfffff), SEVENS, Asked::Value(0x1000, 7)),
    ((0x1000, 0xfffff), SEVENS, Asked::Value(0x10FFFF, 7)),
    ((0x1000, 0xfffff), SEVENS, Asked::Value(0x110000, 9)),
    ((0x1001, 0xfffff), SEVENS, Asked::Value(0x1000, 9)),
    ((0x1001, 0xfffff), SEVENS, Asked::Value(0x1001, 7)),
    ((0x1000, 0), SEVENS, Asked::Value(0, 7)),
    ((0xFFFF_FFFF, 0xfffff), SEVENS, Asked::Value(0, 7)),
    ((0xFFFF_FFFF, 0xfffff), SEVENS, Asked::Value(0x1000, 9)),
    ((0x2000, 0xfffff), ONES, Asked::Value(0, 1)),
    ((0x2000, 0xfffff), ONES, Asked::Value(0x1000, 3)),
    ((0x2000, 0xfffff), ONES, Asked::Value(0x2000, 2)),
    // In a block that is wrongly named as null, each code point is a range of its own.
    ((0x1000, 0xfffff), SEVENS, Asked::Ranges(1)),
    ((0x1000, 0), SEVENS, Asked::Ranges(0x1001)),
    ((0xFFFF_FFFF, 0xfffff), SEVENS, Asked::Ranges(0)),
    ((0x2000, 0xfffff), ONES, Asked::Ranges(0)),
    (
        (0x1000, 0xfffff),
        SEVENS,
        Asked::Range(0, Some((0, 0x10FFFF, 7))),
    ),
    ((0x1000, 0xfffff), SEVENS, Asked::Range(0x110000, None)),
    ((0x1000, 0), SEVENS, Asked::Range(0, Some((0, 0, 7)))),
    (
        (0x1000, 0),
        SEVENS,
        Asked::Range(0xFFF, Some((0xFFF, 0xFFF, 7))),
    ),
    (
        (0x1000, 0),
        SEVENS,
        Asked::Range(0x1000, Some((0x1000, 0x10FFFF, 7))),
    ),
    ((0xFFFF_FFFF, 0xfffff), SEVENS, Asked::Range(0, None)),
    ((0x2000, 0xfffff), ONES, Asked::Range(0, None)),
    ((0x2000, 0xfffff), ONES, Asked::Range(0x1000, None)),
    (
        (0x2000, 0xfffff),
        ONES,
        Asked::Range(0x2000, Some((0x2000, 0x10FFFF, 2))),
    ),
];

/// The range of a trie from `c` on: its first and its last code point, and its value.
fn range_at(trie: &CodePointTrie<'_, u8>, c: u32) -> Option<(u32, u32, u8)> {
    match trie.get_range(c) {
        Some(found) => Some((*found.range.start(), *found.range.end(), found.value)),
        None => None,
    }
}

/// The packed byte of a code point's cell, if it has one.
fn packed_at(trie: &CodePointTrie<'_, u8>, c: u32) -> Option<u8> {
    match trie.get32_ule(c) {
        Some(bytes) => bytes.first().copied(),
        None => None,
    }
}

/// The number of ranges from 0 on.
fn count_of(trie: &CodePointTrie<'_, u8>) -> usize {
    trie.iter_ranges().count()
}

/// True if the trie has the expected result.
fn answers(trie: CodePointTrie<'_, u8>, asked: &Asked) -> bool {
    match asked {
        Asked::Coherent(want) => trie.is_coherent() == *want,
        Asked::Ranges(want) => count_of(&trie) == *want,
        Asked::Value(c, want) => packed_at(&trie, *c) == Some(*want) && trie.get32(*c) == *want,
        Asked::Range(c, want) => range_at(&trie, *c) == *want,
    }
}

/// Calls: `CodePointTrie::try_new`, `CodePointTrie::is_coherent`, `CodePointTrie::get32`,
/// `CodePointTrie::get32_ule`, `CodePointTrie::get_range`, `CodePointTrie::iter_ranges`,
/// `CodePointMapRangeIterator::next`.
#[test]
fn headers_quiet() {
    none_asked(|| {
        say("call");
        for (row, (header, cells, asked)) in HEADERS.iter().enumerate() {
            let cells = data(*cells);
            let right = answers(small_trie(*header, &ZEROS, &cells), asked);
            expect_same((row, *header, right), (row, *header, true), "a row");
        }
        say("done");
    });
}

// How many cells one look-up and one walk read, counted by user-defined cells.

/// The cells of a trie's parts, with a count of the reads.
struct CountedParts<'a, T: TrieValue> {
    index: ZeroSlice<'a, u16>,
    values: ZeroSlice<'a, T>,
    reads: u64,
}

impl<'a, T: TrieValue> Cells<T> for CountedParts<'a, T> {
    fn index_len(&self) -> usize {
        self.index.len()
    }

    fn data_len(&self) -> usize {
        self.values.len()
    }

    fn index_cell(&mut self, i: usize) -> Option<u16> {
        self.reads += 1;
        self.index.get(i)
    }

    fn data_cell(&mut self, i: usize) -> Option<T> {
        self.reads += 1;
        self.values.get(i)
    }
}

/// The results of a walk, of `look_up_whole` and of `look_up` at a code point, each with the number
/// of cells it read, and whether the trie is coherent.
type Answers<T> = (
    (Option<CodePointMapRange<T>>, u64),
    (Option<T>, u64),
    (Option<T>, u64),
    bool,
);

/// The results at `c` over the counting cells.
fn counted<T: TrieValue>(trie: &CodePointTrie<'_, T>, c: u32) -> Answers<T> {
    let (header, index, values) = trie.parts();
    let mut cells = CountedParts {
        index,
        values,
        reads: 0,
    };
    let range = walk(&header, &mut cells, c);
    let walked = cells.reads;
    cells.reads = 0;
    let whole = look_up_whole(&header, &mut cells, c);
    let read = cells.reads;
    cells.reads = 0;
    let value = look_up(&header, &mut cells, c);
    let looked_up = (value, cells.reads);
    let coherent = is_coherent(&header, &mut cells);
    ((range, walked), (whole, read), looked_up, coherent)
}

/// Code points of a trie in which one block of 512 has 18-bit offsets, each with its cell and the
/// number of cells that a look-up reads. The longest path takes five.
static LOOK_UPS: [(u32, Option<u8>, u64); 6] = [
    (0x1035, Some(42), 5),
    (0x1034, Some(0), 5),
    (0x41, Some(0), 2),
    (0x1400, Some(0), 4),
    (0x2000, Some(0), 1),
    (0x110000, None, 0),
];

/// The bytes of an index whose index-2 block is at position 65. Its ninth cell, for 0x1000, names
/// the block of 18-bit offsets at position 80. The fourth offset of that block, for 0x1030, is 3.
fn long_offsets() -> [u8; 256] {
    let mut index = [0; 256];
    index[128] = 65;
    index[146] = 80;
    index[147] = 0x80;
    index[168] = 3;
    index
}

/// Calls: `codepointtrie::look_up`, `codepointtrie::look_up_whole`, `codepointtrie::walk`,
/// `codepointtrie::is_coherent`.
#[test]
fn cells_quiet() {
    none_asked(|| {
        let (index, ones) = (long_offsets(), data(ONES));
        let mut values = [0u8; 66];
        values[8] = 42;
        say("call");
        for (c, cell, reads) in LOOK_UPS.iter() {
            let trie = trie_of::<u8>(small_header(0x2000, 0), &index, &values);
            let (_, (whole, _), found, _) = counted(&trie, *c);
            expect_at((whole, found), (*cell, (*cell, *reads)), *c);
        }
        let trie = trie_of::<u8>(small_header(0x1000, 1), &ZEROS, &ones);
        let ((range, _), (whole, _), (value, _), coherent) = counted(&trie, 0x41);
        say("done");
        let found = (range.is_some(), whole, value, coherent);
        expect_at(found, (true, Some(1), Some(1), true), 0x41);
    });
}
