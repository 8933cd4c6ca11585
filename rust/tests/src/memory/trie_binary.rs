//! Tries in ICU's binary form.

use crate::icu_trie::cptrie::CodePointTrie;
use crate::icu_trie::header::{CodePointTrieHeader, TrieType};
use crate::icu_trie::value::TrieValue;
use crate::icu_trie_binary::binary::{
    AnyWidthTrie, BinaryError, SwappedError, WriteError, binary_len, from_binary, from_binary_any,
    from_binary_swapped, to_binary, write_binary,
};
use crate::memory::support::{expect, expect_same};
use crate::refusals::{each_refused, none_asked, say};
use crate::support::prelude::*;

// Tries that `ucptrie_toBinary` of ICU4C 72 wrote. Each was built by
// `umutablecptrie_buildImmutable` from an initial value, an error value and calls of
// `umutablecptrie_setRange`.

/// Small, 8 bits. Initial value 0, error value 0. Up to U+0FFF the even code points have 3 and the
/// odd ones 1; from U+1000 on all have 5. It has no data null block.
pub const SMALL_8: [u8; 276] = [
    51, 105, 114, 84, 66, 15, 64, 0, 132, 0, 255, 127, 255, 255, 8, 0, 0, 0, 64, 0, 0, 0, 0, 0, 0,
    0, 0, 0, 0, 0, 0, 0, 0, 0, 0, 0, 0, 0, 0, 0, 0, 0, 0, 0, 0, 0, 0, 0, 0, 0, 0, 0, 0, 0, 0, 0, 0,
    0, 0, 0, 0, 0, 0, 0, 0, 0, 0, 0, 0, 0, 0, 0, 0, 0, 0, 0, 0, 0, 0, 0, 0, 0, 0, 0, 0, 0, 0, 0, 0,
    0, 0, 0, 0, 0, 0, 0, 0, 0, 0, 0, 0, 0, 0, 0, 0, 0, 0, 0, 0, 0, 0, 0, 0, 0, 0, 0, 0, 0, 0, 0, 0,
    0, 0, 0, 0, 0, 0, 0, 0, 0, 0, 0, 0, 0, 0, 0, 0, 0, 0, 0, 0, 0, 0, 0, 3, 1, 3, 1, 3, 1, 3, 1, 3,
    1, 3, 1, 3, 1, 3, 1, 3, 1, 3, 1, 3, 1, 3, 1, 3, 1, 3, 1, 3, 1, 3, 1, 3, 1, 3, 1, 3, 1, 3, 1, 3,
    1, 3, 1, 3, 1, 3, 1, 3, 1, 3, 1, 3, 1, 3, 1, 3, 1, 3, 1, 3, 1, 3, 1, 3, 1, 3, 1, 3, 1, 3, 1, 3,
    1, 3, 1, 3, 1, 3, 1, 3, 1, 3, 1, 3, 1, 3, 1, 3, 1, 3, 1, 3, 1, 3, 1, 3, 1, 3, 1, 3, 1, 3, 1, 3,
    1, 3, 1, 3, 1, 3, 1, 3, 1, 3, 1, 3, 1, 3, 1, 3, 1, 3, 1, 3, 1, 3, 1, 5, 5, 5, 0,
];

/// Fast, 16 bits. Initial value 5, error value 0xBAD. U+0041..005A have 0x1234. These are its first
/// bytes: the header, and the first two cells of the index. The other 1,022 cells are 0.
const FAST_16_FRONT: [u8; 20] = [
    51, 105, 114, 84, 0, 0, 0, 4, 130, 0, 255, 127, 0, 0, 1, 0, 0, 0, 64, 0,
];

/// The data of the same trie.
const FAST_16_DATA: [u8; 260] = [
    5, 0, 5, 0, 5, 0, 5, 0, 5, 0, 5, 0, 5, 0, 5, 0, 5, 0, 5, 0, 5, 0, 5, 0, 5, 0, 5, 0, 5, 0, 5, 0,
    5, 0, 5, 0, 5, 0, 5, 0, 5, 0, 5, 0, 5, 0, 5, 0, 5, 0, 5, 0, 5, 0, 5, 0, 5, 0, 5, 0, 5, 0, 5, 0,
    5, 0, 5, 0, 5, 0, 5, 0, 5, 0, 5, 0, 5, 0, 5, 0, 5, 0, 5, 0, 5, 0, 5, 0, 5, 0, 5, 0, 5, 0, 5, 0,
    5, 0, 5, 0, 5, 0, 5, 0, 5, 0, 5, 0, 5, 0, 5, 0, 5, 0, 5, 0, 5, 0, 5, 0, 5, 0, 5, 0, 5, 0, 5, 0,
    5, 0, 52, 18, 52, 18, 52, 18, 52, 18, 52, 18, 52, 18, 52, 18, 52, 18, 52, 18, 52, 18, 52, 18,
    52, 18, 52, 18, 52, 18, 52, 18, 52, 18, 52, 18, 52, 18, 52, 18, 52, 18, 52, 18, 52, 18, 52, 18,
    52, 18, 52, 18, 52, 18, 5, 0, 5, 0, 5, 0, 5, 0, 5, 0, 5, 0, 5, 0, 5, 0, 5, 0, 5, 0, 5, 0, 5, 0,
    5, 0, 5, 0, 5, 0, 5, 0, 5, 0, 5, 0, 5, 0, 5, 0, 5, 0, 5, 0, 5, 0, 5, 0, 5, 0, 5, 0, 5, 0, 5, 0,
    5, 0, 5, 0, 5, 0, 5, 0, 5, 0, 5, 0, 5, 0, 5, 0, 5, 0, 5, 0, 173, 11,
];

/// All bytes of the same trie.
pub fn fast_16() -> [u8; 2324] {
    let mut bytes = [0; 2324];
    bytes[..20].copy_from_slice(&FAST_16_FRONT);
    bytes[2064..].copy_from_slice(&FAST_16_DATA);
    bytes
}

/// Small, 32 bits. Initial value 1, error value 0xBADBAD. U+0041..005A have 0x12345678, and
/// U+1F600..1F64F have 0xFFFFFFFE. The last index cell only aligns the data.
pub const SMALL_32: [u8; 972] = [
    51, 105, 114, 84, 65, 0, 186, 0, 146, 0, 2, 0, 0, 0, 252, 0, 0, 0, 64, 0, 0, 0, 0, 0, 0, 0, 0,
    0, 0, 0, 0, 0, 0, 0, 0, 0, 0, 0, 0, 0, 0, 0, 0, 0, 0, 0, 0, 0, 0, 0, 0, 0, 0, 0, 0, 0, 0, 0, 0,
    0, 0, 0, 0, 0, 0, 0, 0, 0, 0, 0, 0, 0, 0, 0, 0, 0, 0, 0, 0, 0, 0, 0, 0, 0, 0, 0, 0, 0, 0, 0, 0,
    0, 0, 0, 0, 0, 0, 0, 0, 0, 0, 0, 0, 0, 0, 0, 0, 0, 0, 0, 0, 0, 0, 0, 0, 0, 0, 0, 0, 0, 0, 0, 0,
    0, 0, 0, 0, 0, 0, 0, 0, 0, 0, 0, 0, 0, 0, 0, 0, 0, 0, 0, 0, 0, 144, 0, 152, 0, 152, 0, 152, 0,
    152, 0, 152, 0, 152, 0, 157, 0, 0, 0, 16, 0, 32, 0, 48, 0, 64, 0, 80, 0, 96, 0, 112, 0, 0, 0,
    16, 0, 32, 0, 48, 0, 0, 0, 16, 0, 32, 0, 48, 0, 0, 0, 16, 0, 32, 0, 48, 0, 0, 0, 16, 0, 32, 0,
    48, 0, 0, 0, 16, 0, 32, 0, 48, 0, 0, 0, 16, 0, 32, 0, 48, 0, 0, 0, 16, 0, 32, 0, 48, 0, 0, 0,
    16, 0, 32, 0, 48, 0, 128, 0, 128, 0, 128, 0, 128, 0, 128, 0, 0, 0, 0, 0, 0, 0, 0, 0, 0, 0, 0,
    0, 0, 0, 0, 0, 0, 0, 0, 0, 0, 0, 0, 0, 0, 0, 0, 0, 0, 0, 0, 0, 0, 0, 0, 0, 0, 0, 0, 0, 0, 0, 0,
    0, 0, 0, 0, 0, 0, 0, 0, 0, 0, 0, 72, 0, 80, 0, 80, 0, 80, 0, 80, 0, 80, 0, 80, 0, 80, 0, 2, 0,
    2, 0, 2, 0, 2, 0, 2, 0, 2, 0, 2, 0, 2, 0, 2, 0, 2, 0, 2, 0, 2, 0, 2, 0, 2, 0, 2, 0, 2, 0, 2, 0,
    2, 0, 2, 0, 2, 0, 2, 0, 2, 0, 2, 0, 2, 0, 2, 0, 2, 0, 2, 0, 2, 0, 2, 0, 2, 0, 2, 0, 2, 0, 112,
    0, 238, 255, 1, 0, 0, 0, 1, 0, 0, 0, 1, 0, 0, 0, 1, 0, 0, 0, 1, 0, 0, 0, 1, 0, 0, 0, 1, 0, 0,
    0, 1, 0, 0, 0, 1, 0, 0, 0, 1, 0, 0, 0, 1, 0, 0, 0, 1, 0, 0, 0, 1, 0, 0, 0, 1, 0, 0, 0, 1, 0, 0,
    0, 1, 0, 0, 0, 1, 0, 0, 0, 1, 0, 0, 0, 1, 0, 0, 0, 1, 0, 0, 0, 1, 0, 0, 0, 1, 0, 0, 0, 1, 0, 0,
    0, 1, 0, 0, 0, 1, 0, 0, 0, 1, 0, 0, 0, 1, 0, 0, 0, 1, 0, 0, 0, 1, 0, 0, 0, 1, 0, 0, 0, 1, 0, 0,
    0, 1, 0, 0, 0, 1, 0, 0, 0, 1, 0, 0, 0, 1, 0, 0, 0, 1, 0, 0, 0, 1, 0, 0, 0, 1, 0, 0, 0, 1, 0, 0,
    0, 1, 0, 0, 0, 1, 0, 0, 0, 1, 0, 0, 0, 1, 0, 0, 0, 1, 0, 0, 0, 1, 0, 0, 0, 1, 0, 0, 0, 1, 0, 0,
    0, 1, 0, 0, 0, 1, 0, 0, 0, 1, 0, 0, 0, 1, 0, 0, 0, 1, 0, 0, 0, 1, 0, 0, 0, 1, 0, 0, 0, 1, 0, 0,
    0, 1, 0, 0, 0, 1, 0, 0, 0, 1, 0, 0, 0, 1, 0, 0, 0, 1, 0, 0, 0, 1, 0, 0, 0, 1, 0, 0, 0, 1, 0, 0,
    0, 1, 0, 0, 0, 1, 0, 0, 0, 120, 86, 52, 18, 120, 86, 52, 18, 120, 86, 52, 18, 120, 86, 52, 18,
    120, 86, 52, 18, 120, 86, 52, 18, 120, 86, 52, 18, 120, 86, 52, 18, 120, 86, 52, 18, 120, 86,
    52, 18, 120, 86, 52, 18, 120, 86, 52, 18, 120, 86, 52, 18, 120, 86, 52, 18, 120, 86, 52, 18,
    120, 86, 52, 18, 120, 86, 52, 18, 120, 86, 52, 18, 120, 86, 52, 18, 120, 86, 52, 18, 120, 86,
    52, 18, 120, 86, 52, 18, 120, 86, 52, 18, 120, 86, 52, 18, 120, 86, 52, 18, 120, 86, 52, 18, 1,
    0, 0, 0, 1, 0, 0, 0, 1, 0, 0, 0, 1, 0, 0, 0, 1, 0, 0, 0, 1, 0, 0, 0, 1, 0, 0, 0, 1, 0, 0, 0, 1,
    0, 0, 0, 1, 0, 0, 0, 1, 0, 0, 0, 1, 0, 0, 0, 1, 0, 0, 0, 1, 0, 0, 0, 1, 0, 0, 0, 1, 0, 0, 0, 1,
    0, 0, 0, 1, 0, 0, 0, 1, 0, 0, 0, 1, 0, 0, 0, 1, 0, 0, 0, 1, 0, 0, 0, 1, 0, 0, 0, 1, 0, 0, 0, 1,
    0, 0, 0, 1, 0, 0, 0, 1, 0, 0, 0, 1, 0, 0, 0, 1, 0, 0, 0, 1, 0, 0, 0, 1, 0, 0, 0, 1, 0, 0, 0, 1,
    0, 0, 0, 1, 0, 0, 0, 1, 0, 0, 0, 1, 0, 0, 0, 1, 0, 0, 0, 254, 255, 255, 255, 254, 255, 255,
    255, 254, 255, 255, 255, 254, 255, 255, 255, 254, 255, 255, 255, 254, 255, 255, 255, 254, 255,
    255, 255, 254, 255, 255, 255, 254, 255, 255, 255, 254, 255, 255, 255, 254, 255, 255, 255, 254,
    255, 255, 255, 254, 255, 255, 255, 254, 255, 255, 255, 254, 255, 255, 255, 254, 255, 255, 255,
    1, 0, 0, 0, 173, 219, 186, 0,
];

/// The header of a fast 8-bit trie with 1,173 index cells and 67,582 data cells. The trie takes
/// 69,944 bytes.
pub const LARGE_8_HEADER: [u8; 16] = [
    51, 105, 114, 84, 2, 31, 149, 4, 254, 7, 255, 127, 255, 255, 132, 0,
];

// Tries in ICU's binary form that ICU wrote.

/// What ICU says about a trie that it opened.
struct Opened {
    len: usize,
    header: CodePointTrieHeader,
    answers: [(u32, u32); 9],
}

const SMALL_8_OPENED: Opened = Opened {
    len: 276,
    header: CodePointTrieHeader {
        high_start: 0x1000,
        shifted12_high_start: 1,
        index3_null_offset: 0x7fff,
        data_null_offset: 0xfffff,
        null_value: 5,
        trie_type: TrieType::Small,
    },
    answers: [
        (0, 3),
        (0x40, 3),
        (0x41, 1),
        (0x5b, 1),
        (0xfff, 1),
        (0x1000, 5),
        (0x4e00, 5),
        (0x10_ffff, 5),
        (0x11_0000, 0),
    ],
};

const FAST_16_OPENED: Opened = Opened {
    len: 2324,
    header: CodePointTrieHeader {
        high_start: 0x200,
        shifted12_high_start: 1,
        index3_null_offset: 0x7fff,
        data_null_offset: 0,
        null_value: 5,
        trie_type: TrieType::Fast,
    },
    answers: [
        (0, 5),
        (0x40, 5),
        (0x41, 0x1234),
        (0x5a, 0x1234),
        (0x5b, 5),
        (0xffff, 5),
        (0x1_0000, 5),
        (0x10_ffff, 5),
        (0x11_0000, 0xbad),
    ],
};

const SMALL_32_OPENED: Opened = Opened {
    len: 972,
    header: CodePointTrieHeader {
        high_start: 0x1_f800,
        shifted12_high_start: 0x20,
        index3_null_offset: 2,
        data_null_offset: 0,
        null_value: 1,
        trie_type: TrieType::Small,
    },
    answers: [
        (0x40, 1),
        (0x41, 0x1234_5678),
        (0x5b, 1),
        (0x1_f5ff, 1),
        (0x1_f600, 0xffff_fffe),
        (0x1_f64f, 0xffff_fffe),
        (0x1_f650, 1),
        (0x10_ffff, 1),
        (0x11_0000, 0xba_dbad),
    ],
};

/// Checks that the trie has this header and these numbers of its values.
fn expect_numbers<T: TrieValue>(trie: CodePointTrie<'_, T>, want: &Opened) {
    let (header, _, _) = trie.parts();
    expect_same(header, want.header, "the header");
    for (c, number) in want.answers.iter() {
        expect_same((*c, trie.get32_u32(*c)), (*c, *number), "an answer");
    }
}

/// Checks that the bytes start with this trie.
fn expect_opened(bytes: &[u8], want: &Opened) {
    let Ok((trie, len)) = from_binary_any(bytes) else {
        panic!("no trie");
    };
    expect_same(len, want.len, "bytes of the trie");
    match trie {
        AnyWidthTrie::Bits8(trie) => expect_numbers(trie, want),
        AnyWidthTrie::Bits16(trie) => expect_numbers(trie, want),
        AnyWidthTrie::Bits32(trie) => expect_numbers(trie, want),
    }
}

/// Calls: `binary::from_binary_any`, `binary::from_binary`.
#[test]
fn tries_of_icu_quiet() {
    none_asked(|| {
        let (fast, large) = (fast_16(), large_8());
        say("call");
        expect_opened(&SMALL_8, &SMALL_8_OPENED);
        expect_opened(&fast, &FAST_16_OPENED);
        expect_opened(&SMALL_32, &SMALL_32_OPENED);
        let lengths = (length_of(&large), length_of(large.split_at(69_943).0));
        say("done");
        let want = (Ok(69_944), Err(BinaryError::CutOff));
        expect_same(lengths, want, "more bytes, and one less");
    });
}

/// The number of bytes of an 8-bit trie, or the error.
fn length_of(bytes: &[u8]) -> Result<usize, BinaryError> {
    let (_, len) = from_binary::<u8>(bytes)?;
    Ok(len)
}

/// The bytes of a trie whose data length needs more than 16 bits, followed by more bytes.
fn large_8() -> [u8; 70_000] {
    let mut bytes = [0; 70_000];
    bytes[..16].copy_from_slice(&LARGE_8_HEADER);
    bytes
}

// Tries in ICU's binary form in big-endian byte order.

/// The header of `SMALL_8` and the first two cells of its index, in big-endian order. The other
/// index cells are zero, and the values take one byte each. So the rest is the same in both byte
/// orders.
const FRONT_8: [u8; 20] = [
    0x54, 0x72, 0x69, 0x33, 0x0f, 0x42, 0, 64, 0, 132, 0x7f, 0xff, 0xff, 0xff, 0, 8, 0, 0, 0, 64,
];

/// `SMALL_8` in big-endian order, followed by three more bytes.
fn swapped_8() -> Option<Vec<u8>> {
    let mut bytes = Vec::from_slice(&FRONT_8).ok()?;
    bytes.try_extend_from_slice(&SMALL_8[20..]).ok()?;
    bytes.try_extend_from_slice(&[1, 2, 3]).ok()?;
    Some(bytes)
}

/// The number of bytes of the 8-bit trie, or the error.
fn swapped_length_of(bytes: &[u8]) -> Result<usize, SwappedError> {
    let (_, len) = from_binary_swapped::<u8>(bytes)?;
    Ok(len)
}

/// Checks that the trie takes 276 bytes. If an allocation failed, checks the error and says
/// `refused`.
fn expect_length(len: Result<usize, SwappedError>) {
    match len {
        Ok(len) => expect_same(len, 276, "bytes of the trie"),
        Err(error) => {
            expect_same(error, SwappedError::Memory, "the fault");
            say("refused");
        }
    }
}

/// Calls: `binary::from_binary_swapped`.
#[test]
fn from_binary_swapped_refused() {
    each_refused(|| {
        let Some(bytes) = swapped_8() else {
            return;
        };
        say("call");
        let len = swapped_length_of(bytes.as_slice());
        say("done");
        expect_length(len);
    });
}

// Tries written in ICU's binary form: tries that ICU wrote give its bytes again, and allocations
// fail.

/// The number of bytes of the trie, if `binary_len` and `write_binary`, which writes it into
/// `room`, agree on it.
fn written_length<T: TrieValue>(trie: &CodePointTrie<'_, T>, room: &mut [u8]) -> Option<usize> {
    let len = write_binary(trie, room).ok()?;
    if binary_len(trie).ok()? == len {
        Some(len)
    } else {
        None
    }
}

/// True if writing to 275 bytes, which are too few, is an error and leaves them unchanged.
fn is_refused<T: TrieValue>(trie: &CodePointTrie<'_, T>) -> bool {
    let mut few = [7; 275];
    let refused = matches!(write_binary(trie, &mut few), Err(WriteError::Short));
    refused && few == [7; 275]
}

/// Three checks: the trie takes as many bytes as `bytes`; it is written as these bytes into a
/// longer buffer, and the byte after them is unchanged; and writing to too few bytes is an error.
fn is_written_as<T: TrieValue>(trie: CodePointTrie<'_, T>, bytes: &[u8]) -> [bool; 3] {
    let mut room = [7; 2326];
    let len = written_length(&trie, &mut room);
    let same = room.starts_with(bytes) && room.get(bytes.len()) == Some(&7);
    [len == Some(bytes.len()), same, is_refused(&trie)]
}

/// Checks that the trie at the start of the bytes is written as the same bytes.
fn expect_again<T: TrieValue>(bytes: &[u8], _value: T) {
    let Ok((trie, _)) = from_binary::<T>(bytes) else {
        panic!("no trie");
    };
    expect_same(
        is_written_as(trie, bytes),
        [true; 3],
        "length, bytes, and room",
    );
}

/// Calls: `binary::binary_len`, `binary::write_binary`.
#[test]
fn written_again_quiet() {
    none_asked(|| {
        let fast = fast_16();
        say("call");
        expect_again(&SMALL_8, 0u8);
        expect_again(&fast, 0u16);
        expect_again(&SMALL_32, 0u32);
        say("done");
    });
}

/// Checks that the bytes are those that ICU wrote. If an allocation failed, checks the error and
/// says `refused`.
fn expect_bytes(written: Result<Vec<u8>, WriteError>) {
    match written {
        Ok(bytes) => expect_same(bytes.as_slice(), SMALL_8.as_slice(), "the bytes of ICU"),
        Err(error) => {
            expect_same(error, WriteError::Memory, "the fault");
            say("refused");
        }
    }
}

/// The other two functions have the same error type, and allocate nothing.
///
/// Calls: `binary::binary_len`, `binary::to_binary`, `binary::write_binary`.
#[test]
fn to_binary_refused() {
    each_refused(|| {
        let Ok((trie, _)) = from_binary::<u8>(&SMALL_8) else {
            panic!("no trie");
        };
        let mut bytes = [7; 276];
        say("call");
        let len = binary_len(&trie);
        let in_place = write_binary(&trie, &mut bytes);
        let written = to_binary(&trie);
        say("done");
        expect_bytes(written);
        expect_same((len, in_place), (Ok(276), Ok(276)), "their number");
        expect(bytes == SMALL_8, "the bytes in place");
    });
}
