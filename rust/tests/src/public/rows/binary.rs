//! Tries made of parts, and tries and sets in ICU's binary forms.

use crate::sets::set_of;
use bekstaudi::codepointinvlist::CodePointInversionList;
use bekstaudi::codepointinvlist::serialized::{
    SerializeError, WriteError as SetWriteError, from_serialized, serialized_len, to_serialized,
    write_serialized,
};
use bekstaudi::codepointtrie::binary::{
    BinaryError, SwappedError, WriteError, binary_len, from_binary_swapped, to_binary,
};
use bekstaudi::codepointtrie::impl_const::*;
use bekstaudi::codepointtrie::{
    CodePointTrie, CodePointTrieError, CodePointTrieHeader, PartsError, TrieType, TrieValue,
};
use bekstaudi::zerovec::ZeroVec;

// Tries that are made of their parts: the format's constants, which parts are rejected, and headers
// that are wrong.

/// The name of each constant, its value, and the expected value.
static CONSTANTS: [(&str, u32, u32); 24] = [
    ("FAST_TYPE_SHIFT", FAST_TYPE_SHIFT as u32, 6),
    (
        "FAST_TYPE_DATA_BLOCK_LENGTH",
        FAST_TYPE_DATA_BLOCK_LENGTH,
        64,
    ),
    ("FAST_TYPE_DATA_MASK", FAST_TYPE_DATA_MASK, 63),
    (
        "FAST_TYPE_FAST_INDEXING_MAX",
        FAST_TYPE_FAST_INDEXING_MAX,
        0xFFFF,
    ),
    (
        "SMALL_TYPE_FAST_INDEXING_MAX",
        SMALL_TYPE_FAST_INDEXING_MAX,
        0xFFF,
    ),
    (
        "ERROR_VALUE_NEG_DATA_OFFSET",
        ERROR_VALUE_NEG_DATA_OFFSET,
        1,
    ),
    ("HIGH_VALUE_NEG_DATA_OFFSET", HIGH_VALUE_NEG_DATA_OFFSET, 2),
    ("BMP_INDEX_LENGTH", BMP_INDEX_LENGTH, 1024),
    ("SMALL_LIMIT", SMALL_LIMIT, 0x1000),
    ("SMALL_INDEX_LENGTH", SMALL_INDEX_LENGTH, 64),
    ("SHIFT_3", SHIFT_3, 4),
    ("SHIFT_2", SHIFT_2, 9),
    ("SHIFT_1", SHIFT_1, 14),
    ("SHIFT_2_3", SHIFT_2_3, 5),
    ("SHIFT_1_2", SHIFT_1_2, 5),
    ("OMITTED_BMP_INDEX_1_LENGTH", OMITTED_BMP_INDEX_1_LENGTH, 4),
    ("INDEX_2_BLOCK_LENGTH", INDEX_2_BLOCK_LENGTH, 32),
    ("INDEX_2_MASK", INDEX_2_MASK, 31),
    ("CP_PER_INDEX_2_ENTRY", CP_PER_INDEX_2_ENTRY, 512),
    ("INDEX_3_BLOCK_LENGTH", INDEX_3_BLOCK_LENGTH, 32),
    ("INDEX_3_MASK", INDEX_3_MASK, 31),
    ("SMALL_DATA_BLOCK_LENGTH", SMALL_DATA_BLOCK_LENGTH, 16),
    ("SMALL_DATA_MASK", SMALL_DATA_MASK, 15),
    ("CODE_POINT_MAX", CODE_POINT_MAX, 0x10_FFFF),
];

/// Each constant has the value of the format.
#[test]
fn constants() {
    for (name, found, want) in CONSTANTS {
        assert_eq!(found, want, "{name}");
    }
}

/// 128 bytes of zeros: an index of 64 cells.
pub const ZEROS: [u8; 128] = [0; 128];

/// The header of a small trie without a null block.
pub fn small_header(high_start: u32, null_value: u32) -> CodePointTrieHeader {
    CodePointTrieHeader {
        high_start,
        shifted12_high_start: 1,
        index3_null_offset: 0x7fff,
        data_null_offset: 0xfffff,
        null_value,
        trie_type: TrieType::Small,
    }
}

/// Returns the trie of these parts, which it borrows, or the error.
pub fn trie_of<'a, T: TrieValue>(
    header: CodePointTrieHeader,
    index: &'a [u8],
    data: &'a [u8],
) -> Result<CodePointTrie<'a, T>, CodePointTrieError> {
    let index = ZeroVec::parse_bytes(index).expect("no index");
    let data = ZeroVec::parse_bytes(data).expect("no data");
    CodePointTrie::try_new(header, index, data)
}

/// The number of zeros in the index and in the data, the null value, and the error for these parts.
static PARTS: [(usize, usize, u32, Option<CodePointTrieError>); 7] = [
    (64, 64, 0, None),
    (
        64,
        63,
        0,
        Some(CodePointTrieError::DataTooShortForFastAccess),
    ),
    (
        63,
        63,
        0,
        Some(CodePointTrieError::IndexTooShortForFastAccess),
    ),
    (63, 1, 300, Some(CodePointTrieError::InvalidNullValue)),
    (0, 1, 300, Some(CodePointTrieError::InvalidNullValue)),
    (0, 0, 300, Some(CodePointTrieError::EmptyDataVector)),
    (63, 0, 0, Some(CodePointTrieError::EmptyDataVector)),
];

/// Copied parts are rejected with the same error as borrowed parts.
#[test]
fn parts_are_refused_in_order() {
    for (index, data, null_value, fault) in PARTS {
        let header = small_header(0x1000, null_value);
        let lent = trie_of::<u8>(header, &ZEROS[..2 * index], &ZEROS[..data]);
        assert_eq!(lent.err(), fault, "{index} {data} {null_value}");
        let (index, data) = (&[0; 64][..index], &ZEROS[..data]);
        let copied = CodePointTrie::alloc_from_slices(header, index, data);
        assert_eq!(copied.err(), fault.map(PartsError::Trie), "{header:?}");
    }
}

/// Data of 64 equal cells, a high value and an error value.
type Cells = (u8, u8, u8);

const ONES: Cells = (1, 2, 3);

/// Returns the bytes of such data.
fn data((each, high, error): Cells) -> [u8; 66] {
    let mut data = [each; 66];
    data[64] = high;
    data[65] = error;
    data
}

/// The first sixteen cells of the null block of 64 are the null value, and the next one is not.
#[test]
fn null_block_of_sixteen_alone() {
    let mut cells = data((0, 7, 9));
    cells[16] = 1;
    let header = CodePointTrieHeader {
        data_null_offset: 0,
        ..small_header(0x1000, 0)
    };
    assert!(
        !trie_of::<u8>(header, &ZEROS, &cells)
            .expect("no trie")
            .is_coherent()
    );
}

/// The high start is inside a block of 16, and the index has no cell after that of this block.
#[test]
fn ranges_by_an_unaligned_high_start() {
    let mut index = [0; 150];
    index[128] = 65;
    index[146] = 74;
    let cells = data((7, 7, 9));
    let trie = trie_of::<u8>(small_header(0x1001, 0), &index, &cells).expect("no trie");
    for c in [0, 0x1000, 0x1001] {
        let found = trie.get_range(c).map(|it| (it.range, it.value));
        assert_eq!(found, Some((c..=0x10FFFF, 7)), "{c:X}");
    }
}

/// Index-2 cells, the null index-3 offset, data, and whether the trie is coherent. All data offsets
/// are 0.
static INDEX_2_CELLS: [(u16, u16, Cells, bool); 10] = [
    // The block has the value 1, so it is not null. The trie is coherent if the header does not
    // name the block as null (bit 15 counts) and the block's index cells exist.
    (100, 0x7fff, ONES, true),
    (0x8064, 0x7fff, ONES, true),
    (100, 100, ONES, false),
    (0x8064, 0x8064, ONES, false),
    (0x8064, 100, ONES, true),
    (100, 0x8064, ONES, true),
    (130, 0x7fff, ONES, false),
    (0x7ffe, 0x7fff, ONES, false),
    // The block is named as null, and it is null.
    (100, 100, (0, 2, 3), true),
    (0x8064, 0x8064, (0, 2, 3), true),
];

/// Small tries with one block of 512 above their fast limit. The index-2 block is at position 65, and
/// its ninth cell is for 0x1000.
#[test]
fn coherence_by_index_2_cells() {
    for (cell, null_cell, cells, want) in INDEX_2_CELLS {
        let mut index = [0; 280];
        index[128] = 65;
        index[146..148].copy_from_slice(&cell.to_le_bytes());
        let header = CodePointTrieHeader {
            index3_null_offset: null_cell,
            ..small_header(0x1200, 0)
        };
        let cells = data(cells);
        let trie = trie_of::<u8>(header, &index, &cells).expect("no trie");
        assert_eq!(trie.is_coherent(), want, "{cell:X} {null_cell:X}");
    }
}

/// There are no packed bytes if the index leads outside the data.
#[test]
fn packed_cells_outside_the_data() {
    let mut index = [0; 196];
    for (place, cell) in [(128, 65), (132, 51), (134, 50), (146, 66)] {
        index[place] = cell;
    }
    let trie = trie_of::<u8>(small_header(0x1200, 0), &index, &[1; 66]).expect("no trie");
    assert_eq!(trie.get32_ule(0x100F), None);
    assert_eq!(trie.get32_ule(0x101F), Some(&[1][..]));
}

// ICU's binary form: tries that ICU wrote, in both byte orders, and the limits of the form.
//
// `ucptrie_toBinary` of ICU4C 72 wrote the tries. Each was built by `umutablecptrie_buildImmutable`
// from an initial value, an error value and calls of `umutablecptrie_setRange`.

/// Small, 8 bits. Initial value 0, error value 0. Up to U+0FFF the even code points have 3 and the
/// odd ones 1; from U+1000 on all have 5. It has no data null block.
const SMALL_8: [u8; 276] = [
    51, 105, 114, 84, 66, 15, 64, 0, 132, 0, 255, 127, 255, 255, 8, 0, 0, 0, 64, 0, 0, 0, 0, 0, 0,
    0, 0, 0, 0, 0, 0, 0, 0, 0, 0, 0, 0, 0, 0, 0, 0, 0, 0, 0, 0, 0, 0, 0, 0, 0, 0, 0, 0, 0, 0, 0, 0,
    0, 0, 0, 0, 0, 0, 0, 0, 0, 0, 0, 0, 0, 0, 0, 0, 0, 0, 0, 0, 0, 0, 0, 0, 0, 0, 0, 0, 0, 0, 0, 0,
    0, 0, 0, 0, 0, 0, 0, 0, 0, 0, 0, 0, 0, 0, 0, 0, 0, 0, 0, 0, 0, 0, 0, 0, 0, 0, 0, 0, 0, 0, 0, 0,
    0, 0, 0, 0, 0, 0, 0, 0, 0, 0, 0, 0, 0, 0, 0, 0, 0, 0, 0, 0, 0, 0, 0, 3, 1, 3, 1, 3, 1, 3, 1, 3,
    1, 3, 1, 3, 1, 3, 1, 3, 1, 3, 1, 3, 1, 3, 1, 3, 1, 3, 1, 3, 1, 3, 1, 3, 1, 3, 1, 3, 1, 3, 1, 3,
    1, 3, 1, 3, 1, 3, 1, 3, 1, 3, 1, 3, 1, 3, 1, 3, 1, 3, 1, 3, 1, 3, 1, 3, 1, 3, 1, 3, 1, 3, 1, 3,
    1, 3, 1, 3, 1, 3, 1, 3, 1, 3, 1, 3, 1, 3, 1, 3, 1, 3, 1, 3, 1, 3, 1, 3, 1, 3, 1, 3, 1, 3, 1, 3,
    1, 3, 1, 3, 1, 3, 1, 3, 1, 3, 1, 3, 1, 3, 1, 3, 1, 3, 1, 3, 1, 3, 1, 5, 5, 5, 0,
];

/// Small, 32 bits. Initial value 1, error value 0xBADBAD. U+0041..005A have 0x12345678, and
/// U+1F600..1F64F have 0xFFFFFFFE. The last index cell only aligns the data.
const SMALL_32: [u8; 972] = [
    51, 105, 114, 84, 65, 0, 186, 0, 146, 0, 2, 0, 0, 0, 252, 0, 0, 0, 64, 0, 0, 0, 0, 0, 0, 0, 0,
    0, 0, 0, 0, 0, 0, 0, 0, 0, 0, 0, 0, 0, 0, 0, 0, 0, 0, 0, 0, 0, 0, 0, 0, 0, 0, 0, 0, 0, 0, 0, 0,
    0, 0, 0, 0, 0, 0, 0, 0, 0, 0, 0, 0, 0, 0, 0, 0, 0, 0, 0, 0, 0, 0, 0, 0, 0, 0, 0, 0, 0, 0, 0, 0,
    0, 0, 0, 0, 0, 0, 0, 0, 0, 0, 0, 0, 0, 0, 0, 0, 0, 0, 0, 0, 0, 0, 0, 0, 0, 0, 0, 0, 0, 0, 0, 0,
    0, 0, 0, 0, 0, 0, 0, 0, 0, 0, 0, 0, 0, 0, 0, 0, 0, 0, 0, 0, 0, 144, 0, 152, 0, 152, 0, 152, 0,
    152, 0, 152, 0, 152, 0, 157, 0, 0, 0, 16, 0, 32, 0, 48, 0, 64, 0, 80, 0, 96, 0, 112, 0, 0, 0,
    16, 0, 32, 0, 48, 0, 0, 0, 16, 0, 32, 0, 48, 0, 0, 0, 16, 0, 32, 0, 48, 0, 0, 0, 16, 0, 32, 0,
    48, 0, 0, 0, 16, 0, 32, 0, 48, 0, 0, 0, 16, 0, 32, 0, 48, 0, 0, 0, 16, 0, 32, 0, 48, 0, 0, 0,
    16, 0, 32, 0, 48, 0, 128, 0, 128, 0, 128, 0, 128, 0, 128, 0, 0, 0, 0, 0, 0, 0, 0, 0, 0, 0, 0,
    0, 0, 0, 0, 0, 0, 0, 0, 0, 0, 0, 0, 0, 0, 0, 0, 0, 0, 0, 0, 0, 0, 0, 0, 0, 0, 0, 0, 0, 0, 0, 0,
    0, 0, 0, 0, 0, 0, 0, 0, 0, 0, 0, 72, 0, 80, 0, 80, 0, 80, 0, 80, 0, 80, 0, 80, 0, 80, 0, 2, 0,
    2, 0, 2, 0, 2, 0, 2, 0, 2, 0, 2, 0, 2, 0, 2, 0, 2, 0, 2, 0, 2, 0, 2, 0, 2, 0, 2, 0, 2, 0, 2, 0,
    2, 0, 2, 0, 2, 0, 2, 0, 2, 0, 2, 0, 2, 0, 2, 0, 2, 0, 2, 0, 2, 0, 2, 0, 2, 0, 2, 0, 2, 0, 112,
    0, 238, 255, 1, 0, 0, 0, 1, 0, 0, 0, 1, 0, 0, 0, 1, 0, 0, 0, 1, 0, 0, 0, 1, 0, 0, 0, 1, 0, 0,
    0, 1, 0, 0, 0, 1, 0, 0, 0, 1, 0, 0, 0, 1, 0, 0, 0, 1, 0, 0, 0, 1, 0, 0, 0, 1, 0, 0, 0, 1, 0, 0,
    0, 1, 0, 0, 0, 1, 0, 0, 0, 1, 0, 0, 0, 1, 0, 0, 0, 1, 0, 0, 0, 1, 0, 0, 0, 1, 0, 0, 0, 1, 0, 0,
    0, 1, 0, 0, 0, 1, 0, 0, 0, 1, 0, 0, 0, 1, 0, 0, 0, 1, 0, 0, 0, 1, 0, 0, 0, 1, 0, 0, 0, 1, 0, 0,
    0, 1, 0, 0, 0, 1, 0, 0, 0, 1, 0, 0, 0, 1, 0, 0, 0, 1, 0, 0, 0, 1, 0, 0, 0, 1, 0, 0, 0, 1, 0, 0,
    0, 1, 0, 0, 0, 1, 0, 0, 0, 1, 0, 0, 0, 1, 0, 0, 0, 1, 0, 0, 0, 1, 0, 0, 0, 1, 0, 0, 0, 1, 0, 0,
    0, 1, 0, 0, 0, 1, 0, 0, 0, 1, 0, 0, 0, 1, 0, 0, 0, 1, 0, 0, 0, 1, 0, 0, 0, 1, 0, 0, 0, 1, 0, 0,
    0, 1, 0, 0, 0, 1, 0, 0, 0, 1, 0, 0, 0, 1, 0, 0, 0, 1, 0, 0, 0, 1, 0, 0, 0, 1, 0, 0, 0, 1, 0, 0,
    0, 1, 0, 0, 0, 1, 0, 0, 0, 120, 86, 52, 18, 120, 86, 52, 18, 120, 86, 52, 18, 120, 86, 52, 18,
    120, 86, 52, 18, 120, 86, 52, 18, 120, 86, 52, 18, 120, 86, 52, 18, 120, 86, 52, 18, 120, 86,
    52, 18, 120, 86, 52, 18, 120, 86, 52, 18, 120, 86, 52, 18, 120, 86, 52, 18, 120, 86, 52, 18,
    120, 86, 52, 18, 120, 86, 52, 18, 120, 86, 52, 18, 120, 86, 52, 18, 120, 86, 52, 18, 120, 86,
    52, 18, 120, 86, 52, 18, 120, 86, 52, 18, 120, 86, 52, 18, 120, 86, 52, 18, 120, 86, 52, 18, 1,
    0, 0, 0, 1, 0, 0, 0, 1, 0, 0, 0, 1, 0, 0, 0, 1, 0, 0, 0, 1, 0, 0, 0, 1, 0, 0, 0, 1, 0, 0, 0, 1,
    0, 0, 0, 1, 0, 0, 0, 1, 0, 0, 0, 1, 0, 0, 0, 1, 0, 0, 0, 1, 0, 0, 0, 1, 0, 0, 0, 1, 0, 0, 0, 1,
    0, 0, 0, 1, 0, 0, 0, 1, 0, 0, 0, 1, 0, 0, 0, 1, 0, 0, 0, 1, 0, 0, 0, 1, 0, 0, 0, 1, 0, 0, 0, 1,
    0, 0, 0, 1, 0, 0, 0, 1, 0, 0, 0, 1, 0, 0, 0, 1, 0, 0, 0, 1, 0, 0, 0, 1, 0, 0, 0, 1, 0, 0, 0, 1,
    0, 0, 0, 1, 0, 0, 0, 1, 0, 0, 0, 1, 0, 0, 0, 1, 0, 0, 0, 254, 255, 255, 255, 254, 255, 255,
    255, 254, 255, 255, 255, 254, 255, 255, 255, 254, 255, 255, 255, 254, 255, 255, 255, 254, 255,
    255, 255, 254, 255, 255, 255, 254, 255, 255, 255, 254, 255, 255, 255, 254, 255, 255, 255, 254,
    255, 255, 255, 254, 255, 255, 255, 254, 255, 255, 255, 254, 255, 255, 255, 254, 255, 255, 255,
    1, 0, 0, 0, 173, 219, 186, 0,
];

/// The header of `SMALL_8` and the first two cells of its index, in big-endian order. The other
/// index cells are zero, and the values take one byte each. So the rest is the same in both byte
/// orders.
const FRONT_8: [u8; 20] = [
    0x54, 0x72, 0x69, 0x33, 0x0f, 0x42, 0, 64, 0, 132, 0x7f, 0xff, 0xff, 0xff, 0, 8, 0, 0, 0, 64,
];

/// Returns groups of `width` bytes, each in reverse order.
fn reversed(bytes: &[u8], width: usize) -> Vec<u8> {
    bytes
        .chunks(width)
        .flat_map(|it| it.iter().rev().copied())
        .collect()
}

/// A trie of big-endian cells of several bytes is the one that ICU wrote. Its index has 186 cells.
#[test]
fn trie_of_32_bits() {
    let (header, cells) = SMALL_32.split_at(16 + 2 * 186);
    let (signature, header) = header.split_at(4);
    let bytes = [
        reversed(signature, 4),
        reversed(header, 2),
        reversed(cells, 4),
    ]
    .concat();
    let (trie, len) = from_binary_swapped::<u32>(&bytes).expect("no trie");
    assert_eq!((to_binary(&trie), len), (Ok(SMALL_32.to_vec()), 972));
}

/// One byte less than a header.
const SHORT_8: [u8; 15] = [
    0x54, 0x72, 0x69, 0x33, 0x0f, 0x42, 0, 64, 0, 132, 0x7f, 0xff, 0xff, 0xff, 0,
];

/// Bytes that hold no big-endian trie, with the error: a trie in this machine's byte order, less
/// than a header, and a header alone.
static FAULTS: [(&[u8], BinaryError); 3] = [
    (&SMALL_8, BinaryError::Swapped),
    (&SHORT_8, BinaryError::Short),
    (&FRONT_8, BinaryError::CutOff),
];

/// Bytes that hold no such trie are rejected with this error.
#[test]
fn bytes_of_no_such_trie() {
    for (bytes, fault) in FAULTS {
        let read = from_binary_swapped::<u8>(bytes);
        assert_eq!(read.err(), Some(SwappedError::Binary(fault)));
    }
}

/// The index of 186 cells without the last one, which ICU appended.
#[test]
fn odd_index_is_padded_as_icu_does() {
    let header = CodePointTrieHeader {
        high_start: 0x1_f800,
        shifted12_high_start: 0x20,
        index3_null_offset: 2,
        data_null_offset: 0,
        null_value: 1,
        trie_type: TrieType::Small,
    };
    let (index, values) = (&SMALL_32[16..16 + 2 * 185], &SMALL_32[16 + 2 * 186..]);
    let trie = trie_of::<u32>(header, index, values).expect("no trie");
    assert_eq!(
        (to_binary(&trie), binary_len(&trie)),
        (Ok(SMALL_32.to_vec()), Ok(972))
    );
}

/// A header that the binary form can store, of a trie whose cells all are zero.
const PLAIN: CodePointTrieHeader = CodePointTrieHeader {
    high_start: 0x1000,
    shifted12_high_start: 1,
    index3_null_offset: 0x7fff,
    data_null_offset: 0,
    null_value: 0,
    trie_type: TrieType::Small,
};

/// Headers that the binary form cannot store.
const FAR_NULL_BLOCK: CodePointTrieHeader = CodePointTrieHeader {
    data_null_offset: 0x10_0000,
    ..PLAIN
};

const UNEVEN: CodePointTrieHeader = CodePointTrieHeader {
    high_start: 0x1100,
    ..PLAIN
};

const TOO_HIGH: CodePointTrieHeader = CodePointTrieHeader {
    high_start: 0x200_0000,
    ..PLAIN
};

const OTHER_NULL: CodePointTrieHeader = CodePointTrieHeader {
    null_value: 7,
    ..PLAIN
};

/// Headers, the numbers of index cells and of data cells, and the result of `binary_len`.
static LENGTHS: [(
    CodePointTrieHeader,
    (usize, usize),
    Result<usize, WriteError>,
); 9] = [
    (PLAIN, (64, 64), Ok(16 + 2 * 64 + 64)),
    (PLAIN, (0xffff, 64), Ok(16 + 2 * 0xffff + 64)),
    (PLAIN, (0x1_0000, 64), Err(WriteError::LongIndex)),
    (PLAIN, (64, 0xf_ffff), Ok(16 + 2 * 64 + 0xf_ffff)),
    (PLAIN, (64, 0x10_0000), Err(WriteError::LongData)),
    (FAR_NULL_BLOCK, (64, 64), Err(WriteError::NullOffset)),
    (UNEVEN, (64, 64), Err(WriteError::HighStart)),
    (TOO_HIGH, (64, 64), Err(WriteError::HighStart)),
    (OTHER_NULL, (64, 64), Err(WriteError::NullValue)),
];

/// The length at the limits of the binary form, and the errors beyond them.
#[test]
fn lengths_of_tries() {
    for (header, (index, data), want) in LENGTHS {
        let (index, data) = (vec![0; 2 * index], vec![0; data]);
        let trie = trie_of::<u8>(header, &index, &data).expect("no trie");
        assert_eq!(binary_len(&trie), want, "{header:?}");
    }
}

/// Three-byte values are an error, since the binary form has values of one, two and four bytes.
#[test]
fn values_of_three_bytes() {
    let trie = trie_of::<char>(PLAIN, &[0; 2 * 64], &[0; 3 * 64]).expect("no trie");
    assert_eq!(binary_len(&trie), Err(WriteError::UnknownWidth));
}

// Sets in ICU's serialized form. The units are those that `uset_serialize` of ICU4C 72 writes.

/// Sets by their boundaries, and their units.
static WRITTEN: [(&[u32], &[u16]); 9] = [
    (&[], &[0]),
    (&[0x61, 0x7B], &[2, 0x61, 0x7B]),
    (
        &[0x61, 0x7B, 0x1_F600, 0x11_0000],
        &[0x8004, 2, 0x61, 0x7B, 1, 0xF600],
    ),
    (&[0, 0x11_0000], &[1, 0]),
    (&[0x10_FFFF, 0x11_0000], &[0x8002, 0, 0x10, 0xFFFF]),
    (&[0, 0x1_0000], &[0x8003, 1, 0, 1, 0]),
    (&[0x1_0000, 0x11_0000], &[0x8002, 0, 1, 0]),
    (&[0xD800, 0xE000], &[2, 0xD800, 0xE000]),
    (&[0xFFFF, 0x1_0000], &[0x8003, 1, 0xFFFF, 1, 0]),
];

#[test]
fn written() {
    for (ends, units) in &WRITTEN {
        assert_eq!(
            to_serialized(&set_of(ends)),
            Ok(units.to_vec()),
            "{ends:X?}"
        );
    }
}

/// Units that `uset_serialize` does not write, with the ranges that `uset_getSerializedRange`
/// returns for them: the end of the code space as a boundary, a boundary below 0x10000 in two
/// units, and bit 15 although all boundaries take one unit. The last row has two units after the
/// set.
static OTHER: [(&[u16], &[u32], usize); 4] = [
    (&[0x8003, 1, 0x61, 0x11, 0], &[0x61, 0x11_0000], 5),
    (&[0x8002, 0, 0, 0x41], &[0x41, 0x11_0000], 4),
    (&[0x8002, 2, 0x41, 0x5B], &[0x41, 0x5B], 4),
    (&[2, 0x41, 0x5B, 7, 8], &[0x41, 0x5B], 3),
];

/// Reads the units that ICU writes, and others.
#[test]
fn read() {
    let written = WRITTEN
        .iter()
        .map(|(ends, units)| (*units, *ends, units.len()));
    for (units, ends, len) in written.chain(OTHER) {
        assert_eq!(
            from_serialized(units),
            Ok((set_of(ends), len)),
            "{units:X?}"
        );
    }
}

/// Returns the set of every second code point below `limit`, which is even. Its boundaries are all
/// numbers below `limit`.
fn every_second(limit: u32) -> CodePointInversionList<'static> {
    set_of(&(0..limit).collect::<Vec<_>>())
}

/// A set whose boundaries take 0x7FFE units, and one whose boundaries take two more.
#[test]
fn longest_in_units() {
    assert_eq!(serialized_len(&every_second(0x7FFE)), Some(0x7FFF));
    let longer = every_second(0x8000);
    assert_eq!(serialized_len(&longer), None);
    assert_eq!(to_serialized(&longer), Err(SerializeError::TooLong));
    assert_eq!(
        write_serialized(&longer, &mut []),
        Err(SetWriteError::TooLong)
    );
}
