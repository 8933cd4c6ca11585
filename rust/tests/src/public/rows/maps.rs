//! Tries that are built of maps: their cells, sizes and values.

use crate::random::Random;
use bekstaudi::codepointtrie::planes::get_planes_trie;
use bekstaudi::codepointtrie::{
    BuildError, CodePointMapRange, CodePointTrie, CodePointTrieError, TrieType, TrieValue, Write,
    build_from_writes, try_build_from_writes,
};
use bekstaudi::iterator_utils::RangeListIteratorCoalescer;
use bekstaudi::zerovec::ZeroVec;
use std::ops::RangeInclusive;

// How tests build tries of both types.

/// Returns the fast and the small trie of these writes. `values` are the default and the error value.
pub fn both<T: TrieValue>(values: (T, T), writes: &[Write<T>]) -> [CodePointTrie<'static, T>; 2] {
    [TrieType::Fast, TrieType::Small].map(|it| build_from_writes(values.0, values.1, it, writes))
}

/// Returns the writes of `count` adjacent blocks of `size` code points from `first` on. The first
/// block has `number`, and each next one has one more.
pub fn blocks(first: u32, size: u32, count: u32, number: u32) -> impl Iterator<Item = Write<u32>> {
    (0..count).map(move |k| {
        let start = first + k * size;
        Write::Range(start..=start + (size - 1), number + k)
    })
}

/// Expects the values at these code points to have these numbers.
pub fn expect_numbers<T: TrieValue>(trie: &CodePointTrie<'_, T>, expected: &[(u32, u32)]) {
    for (c, number) in expected {
        assert_eq!(trie.get32_u32(*c), *number, "{c:X}");
    }
}

/// Expects the trie to have at most this many index cells and data cells.
pub fn expect_cells<T: TrieValue>(trie: &CodePointTrie<'_, T>, (index, data): (usize, usize)) {
    let (_, indices, cells) = trie.parts();
    let found = (indices.len(), cells.len());
    assert!(found.0 <= index && found.1 <= data, "{found:?}");
}

/// Returns the ranges of a trie, each with its number.
pub fn ranges_of<T: TrieValue>(trie: &CodePointTrie<'_, T>) -> Vec<(RangeInclusive<u32>, u32)> {
    trie.iter_ranges()
        .map(|it| (it.range, it.value.to_u32()))
        .collect()
}

// Data whose blocks share cells: the null block, and blocks that start with the end of the block
// before.

/// The null block of 16 does not have the offset of a block of 64 that only starts with the same
/// cells. Otherwise a walk would take that block of 64 for the null block and skip the fives in it.
///
/// If the null block is written again at the end of the cells, it overlaps the cells of its number
/// there. In the second map these are fifteen, so it adds one cell. The data are then 128 fives, a
/// block of 64 that starts with zeros, a block of 16 that ends with fifteen zeros, one more zero,
/// and the last two values.
#[test]
fn null_block_beside_zeros() {
    for (three, most_data) in [(0x10FFFF, 320), (0x10FFF0, 211)] {
        let writes = [
            Write::Range(0x400..=0x40F, 0u8),
            Write::Range(0x10000..=0x10FFFF, 0),
            Write::One(three, 3),
        ];
        for trie in both((5, 9), &writes) {
            let (header, _, _) = trie.parts();
            assert_eq!(header.null_value, 0);
            assert_ne!(header.data_null_offset, 0xfffff, "a null block");
            assert_ne!(header.index3_null_offset, 0x7fff, "a null block of 512");
            expect_cells(&trie, (usize::MAX, most_data));
        }
    }
}

/// A hundred groups of writes, each `behind` code points after the one before. A group has `count`
/// blocks of `size` code points with ascending numbers; in the next group the numbers are greater
/// by `higher`.
fn overlapping(behind: u32, size: u32, count: u32, higher: u32) -> Vec<Write<u32>> {
    let group = |k: u32| blocks(0x10000 + k * behind, size, count, k * higher + 1);
    (0..100).flat_map(group).collect()
}

/// Expects the tries of both types to have at most this many cells, and these numbers.
fn expect_shared(writes: &[Write<u32>], most: (usize, usize), numbers: &[(u32, u32)]) {
    for trie in both((0, 9), writes) {
        expect_cells(&trie, most);
        expect_numbers(&trie, numbers);
    }
}

/// If a block of 16 starts with the last eight numbers of the block before, these cells are stored
/// once.
#[test]
fn overlapping_data_blocks() {
    let numbers = [(0x10000, 1), (0x10010, 9), (0x1063F, 808), (0x10640, 0)];
    expect_shared(&overlapping(16, 1, 16, 8), (usize::MAX, 1000), &numbers);
}

/// The same for index-3 blocks. Each block of 512 has 32 blocks of 16 of one value; the first
/// sixteen are the last sixteen of the block before.
#[test]
fn overlapping_index_blocks() {
    let numbers = [
        (0xFFFF, 0),
        (0x10000, 1),
        (0x101FF, 32),
        (0x10200, 17),
        (0x1C7FF, 1616),
        (0x1C800, 0),
    ];
    expect_shared(&overlapping(512, 16, 32, 16), (3000, usize::MAX), &numbers);
}

/// Blocks of 16 that occur in a block of 64 below the fast limit need no cells, even at positions
/// that are not multiples of 16.
#[test]
fn small_blocks_in_a_fast_block() {
    let writes: Vec<_> = blocks(0x400, 1, 64, 1)
        .chain(blocks(0x20000, 1, 16, 8))
        .collect();
    let numbers = [(0x43F, 64), (0x20000, 8), (0x2000F, 23), (0x20010, 0)];
    expect_shared(&writes, (usize::MAX, 194), &numbers);
}

// The numbers of index cells and data cells of a built trie, below the proved bounds, and which maps
// are too large.

/// Expects each code point from 0x10000 to `last` to have itself as its number, and the code points
/// next to them to have 0.
fn expect_own_numbers(trie: &CodePointTrie<'_, u32>, last: u32) {
    for c in 0x10000..=last {
        assert_eq!(trie.get32(c), c);
    }
    assert_eq!(trie.get32_ule(0x20FFF), Some(&[0xFF, 0x0F, 0x02, 0x00][..]));
    let others = [
        (0, 0),
        (0xFFFF, 0),
        (last + 1, 0),
        (last + 2, 0),
        (0x110000, 9),
    ];
    expect_numbers(trie, &others);
}

/// Maps from 0x10000 on, by their last code point: the trie type, and the greatest numbers of index
/// cells and data cells.
///
/// In the maps up to 0x3EDEF, 12,000 blocks of 16 values differ. Such a map is not too large, and
/// it does not take long to find which blocks are equal. There are data offsets on both sides of
/// 0xFFFF: the first 127 of its 375 blocks of 512 take 32 index cells each, and the others 36. In
/// addition there are the fast index, and 33 cells for each 0x4000 code points.
static ASCENDING: [(u32, TrieType, usize, usize); 4] = [
    (0x20FFF, TrieType::Fast, usize::MAX, usize::MAX),
    (0x20FFF, TrieType::Small, usize::MAX, usize::MAX),
    (0x3EDEF, TrieType::Fast, 14_412, 192_224),
    (0x3EDEF, TrieType::Small, 13_616, 192_224),
];

/// Each code point has itself as its number.
#[test]
fn ascending_numbers() {
    for (last, trie_type, most_index, most_data) in ASCENDING {
        let writes: Vec<_> = blocks(0x10000, 1, last - 0xFFFF, 0x10000).collect();
        let trie = build_from_writes(0, 9, trie_type, &writes);
        expect_cells(&trie, (most_index, most_data));
        expect_own_numbers(&trie, last);
    }
}

/// A map with 800 different blocks of 512 values is not too large, and its data and its index stay
/// small.
#[test]
fn eight_hundred_blocks() {
    let writes: Vec<_> = (0..799)
        .map(|k: u32| Write::One(0x10000 + 512 * k, k + 1))
        .collect();
    let [fast, small] = both((0, 9), &writes);
    expect_cells(&fast, (28_800, 13_024));
    for trie in [fast, small] {
        let numbers = [(0x10000, 1), (0x10001, 0), (0x73C00, 799), (0x73C01, 0)];
        expect_numbers(&trie, &numbers);
    }
}

/// A map with as many different values as there are code points is too large.
#[test]
fn too_large() {
    let writes: Vec<_> = blocks(0, 1, 0x110000, 1).collect();
    for trie_type in [TrieType::Fast, TrieType::Small] {
        let refused = try_build_from_writes(0, 9, trie_type, &writes).err();
        assert_eq!(refused, Some(BuildError::TooLarge));
    }
}

/// The smallest trie, whose data are the first 128 cells and the error value. It has one number for
/// all code points, by a write or as the default.
#[test]
fn one_number_for_all() {
    let written = build_from_writes(0, 9, TrieType::Small, &[Write::Range(0..=0x10FFFF, 7)]);
    let default = build_from_writes(7u32, 9, TrieType::Small, &[]);
    for trie in [written, default] {
        let (_, index, data) = trie.parts();
        assert_eq!((index.len(), data.len()), (64, 129));
    }
}

// Random maps, built and compared with a plain list of the number of each code point.

/// Code points near which something may go wrong.
const PLACES: [u32; 16] = [
    0, 0x40, 0x7F, 0x80, 0x400, 0xFC0, 0xFF0, 0x1000, 0xD7FF, 0xFFC0, 0x10000, 0x103FF, 0x1FFF0,
    0x20000, 0xEFFFF, 0x10FF00,
];

/// The greatest lengths of a written range.
const LENGTHS: [u32; 8] = [0, 1, 15, 16, 64, 200, 600, 0x12000];

/// Returns a write of a number below `numbers` to a range near one of `PLACES`.
fn random_write(random: &mut Random, numbers: usize) -> Write<u32> {
    let first = random.one_of(&PLACES) + random.below(0x110) as u32;
    let most = random.one_of(&LENGTHS);
    let length = random.below(most as usize + 1) as u32;
    Write::Range(first..=first + length, random.below(numbers) as u32)
}

/// Returns the writes of random map number `place`. Odd maps have few numbers, so that blocks are
/// often equal. Every fourth map has so many different blocks that data offsets need 18 bits in some
/// index-3 blocks and 16 in others.
fn random_writes(random: &mut Random, place: u32) -> Vec<Write<u32>> {
    let different = if place % 4 == 0 { 0x14000 } else { 0 };
    let numbers = if place % 2 == 0 { 0x1000000 } else { 4 };
    let mut writes: Vec<_> = blocks(0x10000, 1, different, 1).collect();
    writes.extend((0..24).map(|_| random_write(random, numbers)));
    writes
}

/// Returns the number of each code point: that of the last write, or 0 if there is none.
fn painted(writes: &[Write<u32>]) -> Vec<u32> {
    let mut numbers = vec![0; 0x110000];
    let clamped = |c: u32| c.min(0x110000) as usize;
    for write in writes {
        if let Write::Range(range, number) = write {
            numbers[clamped(*range.start())..clamped(*range.end() + 1)].fill(*number);
        }
    }
    numbers
}

/// Expects the trie's ranges to cover all code points, ranges and look-ups to have the painted
/// numbers, and each range to end where the number changes.
fn expect_painted(trie: &CodePointTrie<'_, u32>, numbers: &[u32]) {
    let mut next = 0;
    for range in trie.iter_ranges() {
        let (first, last) = (*range.range.start(), *range.range.end());
        assert_eq!(first, next, "the start of a range");
        for c in range.range {
            assert_eq!(numbers[c as usize], range.value, "painted at {c:X}");
            assert_eq!(trie.get32(c), range.value, "looked up at {c:X}");
        }
        next = last + 1;
        assert_ne!(
            numbers.get(next as usize),
            Some(&range.value),
            "{first:X} is cut"
        );
    }
    assert_eq!((next, trie.get32(next)), (0x110000, 9));
}

/// Of each four maps, two have few numbers and one has offsets of 18 bits.
#[test]
fn random_maps() {
    let mut random = Random(1);
    for place in 0..8 {
        let writes = random_writes(&mut random, place);
        let numbers = painted(&writes);
        for trie in both((0, 9), &writes) {
            expect_painted(&trie, &numbers);
        }
    }
}

// The trie of the planes over each prefix of its index: look-ups and walks find a value or the error
// value, and the ranges follow each other and end.

/// Returns the trie with only the first `len` cells of its index.
fn with_prefix<'a>(
    planes: &'a CodePointTrie<'_, u8>,
    len: usize,
) -> Result<CodePointTrie<'a, u8>, CodePointTrieError> {
    let (header, index, values) = planes.parts();
    let prefix = ZeroVec::parse_bytes(&index.as_bytes()[..2 * len]).expect("no index");
    CodePointTrie::try_new(header, prefix, values.as_zerovec())
}

/// Expects the first and the last code point of each plane to have the number of the plane, or 0. A
/// look-up that finds no cell returns the error value, which is 0. The last plane has the high
/// value.
fn expect_planes(trie: &CodePointTrie<'_, u8>, len: usize) {
    for plane in 0..17 {
        for c in [plane << 16, plane << 16 | 0xFFFF] {
            let found = trie.get32_u32(c);
            let is_missing = found == 0 && plane < 16;
            assert!(
                found == plane || is_missing,
                "{found} at {c:X} by {len} cells"
            );
        }
    }
}

/// Expects each range to start right after the previous one, and to end within the code points. Only
/// the trie over the whole index is coherent; its ranges must end at the last code point.
fn expect_walked(trie: &CodePointTrie<'_, u8>, len: usize) {
    let mut next = 0;
    for range in trie.iter_ranges() {
        let (first, last) = (*range.range.start(), *range.range.end());
        let follows = first == next && first <= last && last < 0x110000;
        assert!(follows, "{first:X}..={last:X} by {len} cells");
        next = last + 1;
    }
    assert_eq!(trie.is_coherent(), len == 1168, "{len} cells");
    assert!(next == 0x110000 || len < 1168, "the last range");
}

/// An index of fewer than 64 cells is rejected.
#[test]
fn prefixes_of_the_index() {
    let planes = get_planes_trie();
    for len in 0..=1168 {
        match with_prefix(&planes, len) {
            Ok(trie) => {
                assert!(len >= 64, "a trie of {len} cells");
                expect_planes(&trie, len);
                expect_walked(&trie, len);
            }
            Err(fault) => {
                assert!(len < 64, "no trie of {len} cells");
                assert_eq!(fault, CodePointTrieError::IndexTooShortForFastAccess);
            }
        }
    }
}

// Adjacent ranges with equal values are joined.

/// Ranges, each with its value, and the ranges that they are joined to. Nothing is joined to a range
/// that ends at the greatest number.
type Row = (
    &'static [(RangeInclusive<u32>, u8)],
    &'static [(RangeInclusive<u32>, u8)],
);

static ROWS: [Row; 2] = [
    (
        &[(0..=3, 1), (4..=6, 1), (8..=9, 1)],
        &[(0..=6, 1), (8..=9, 1)],
    ),
    (
        &[(5..=u32::MAX, 1), (0..=2, 1)],
        &[(5..=u32::MAX, 1), (0..=2, 1)],
    ),
];

#[test]
fn joined_ranges() {
    for (ranges, want) in &ROWS {
        let ranges = ranges.iter().cloned();
        let ranges = ranges.map(|(range, value)| CodePointMapRange { range, value });
        let joined = RangeListIteratorCoalescer::new(ranges);
        let joined: Vec<_> = joined.map(|it| (it.range, it.value)).collect();
        assert_eq!(joined, *want);
    }
}
