//! Packed vectors: equality, invalid bytes, code points and user-defined types.

use crate::icu_zerovec::ule::{AsULE, UleError};
use crate::icu_zerovec::{PotentialCodePoint, ZeroVec};
use crate::memory::support::{expect, expect_same, hash_of};
use crate::memory::vectors::{lent_of, packed_of, view_of};
use crate::refusals::{none_asked, say};

// Equality and hashing of vectors, by their lists of values, whether they borrow or own the bytes.

/// Returns whether two vectors are equal, whether their views are, and whether their hashes are.
fn are_alike(one: &ZeroVec<'_, u16>, other: &ZeroVec<'_, u16>) -> [bool; 4] {
    let (view, other_view) = (view_of(one), view_of(other));
    [
        *one == *other,
        view == other_view,
        hash_of(one) == hash_of(other),
        hash_of(&view) == hash_of(&other_view),
    ]
}

/// The bytes of lists, and whether the list is the single value 1.
static LISTS: [(&[u8], bool); 5] = [
    (&[1, 0], true),
    (&[], false),
    (&[0, 1], false),
    (&[1, 0, 0, 0], false),
    (&[1, 0, 1, 0], false),
];

/// Calls: `ZeroVec::parse_bytes`, `ZeroVec::as_slice`.
#[test]
fn comparisons_quiet() {
    none_asked(|| {
        let Ok(owner) = packed_of(&[1_u16]) else {
            return;
        };
        say("call");
        for (bytes, want) in LISTS.iter() {
            let found = are_alike(&owner, &lent_of(bytes));
            expect_same((*bytes, found), (*bytes, [*want; 4]), "1 and another list");
        }
        say("done");
    });
}

// 24-bit numbers that may not be code points.

/// Expects the number to be accepted, with the same value and the same hash as the number, or to be
/// rejected as `want`.
fn expect_number(number: u32, want: Option<u32>) {
    match PotentialCodePoint::try_from(number) {
        Ok(point) => {
            let found = (None, u32::from(point), hash_of(&point));
            expect_same(found, (want, number, hash_of(&number)), "a point");
        }
        Err(refused) => expect_same(Some(refused), want, "refused"),
    }
}

/// Numbers, with the error if they are rejected.
static NUMBERS: [(u32, Option<u32>); 5] = [
    (0, None),
    (0x11_0000, None),
    (0xff_ffff, None),
    (0x100_0000, Some(0x100_0000)),
    (u32::MAX, Some(u32::MAX)),
];

/// Points are ordered by their numbers.
///
/// Calls: `PotentialCodePoint::from_u24`, `PotentialCodePoint::try_from`.
#[test]
fn potential_code_points_quiet() {
    none_asked(|| {
        say("call");
        for (number, want) in NUMBERS.iter() {
            expect_number(*number, *want);
        }
        let low = PotentialCodePoint::from_u24(0xff);
        let high = PotentialCodePoint::from_u24(0x100);
        say("done");
        expect(low < high && low != high, "0xff is below 0x100");
    });
}

// Bytes that are not values.

/// Expects this error for the bytes.
fn expect_refused<T: AsULE>(bytes: &[u8], want: UleError) {
    let refused = ZeroVec::<T>::parse_bytes(bytes).err();
    expect_same((bytes, refused), (bytes, Some(want)), "refused");
}

/// Bytes that are not characters. The length is tested first, and then the cells in order.
static NO_CHARACTERS: [(&[u8], UleError); 8] = [
    (&[0, 0xd8], UleError::Length),
    (&[0, 0xd8, 0, 0x41], UleError::Length),
    (&[0, 0xd8, 0], UleError::Cell(0)),
    (&[0xff, 0xdf, 0], UleError::Cell(0)),
    (&[0, 0, 0x11], UleError::Cell(0)),
    (&[0xff, 0xff, 0xff], UleError::Cell(0)),
    (&[0x41, 0, 0, 0, 0, 0x11, 0, 0xd8, 0], UleError::Cell(1)),
    (
        &[0x41, 0, 0, 0xff, 0xff, 0x10, 0, 0xdc, 0],
        UleError::Cell(2),
    ),
];

/// Calls: `ZeroVec::parse_bytes`.
#[test]
fn refused_bytes_quiet() {
    none_asked(|| {
        say("call");
        for (bytes, want) in NO_CHARACTERS.iter() {
            expect_refused::<char>(bytes, *want);
        }
        expect_refused::<u16>(&[1], UleError::Length);
        expect_refused::<u16>(&[1, 2, 3], UleError::Length);
        expect_refused::<i32>(&[1], UleError::Length);
        expect_refused::<i32>(&[1, 2, 3], UleError::Length);
        expect_refused::<PotentialCodePoint>(&[1, 2, 3, 4], UleError::Length);
        say("done");
    });
}

// A user-defined type of which several bytes encode the same value.

/// A flag. Any byte but zero is a flag that is on.
#[derive(Clone, Copy, PartialEq, Eq)]
pub(super) struct Flag {
    pub(super) on: bool,
}

impl AsULE for Flag {
    const WIDTH: usize = 1;

    fn to_unaligned(self) -> [u8; 4] {
        if self.on { [1, 0, 0, 0] } else { [0, 0, 0, 0] }
    }

    fn from_unaligned(bytes: &[u8]) -> Option<Flag> {
        Some(Flag { on: bytes[0] != 0 })
    }
}

// Packed vectors of a user-defined type.

/// The vector of flags that borrows these bytes.
fn lent_flags<'a>(bytes: &'a [u8]) -> ZeroVec<'a, Flag> {
    match ZeroVec::<Flag>::parse_bytes(bytes) {
        Ok(flags) => flags,
        Err(_) => panic!("no flags"),
    }
}

/// Whether two vectors of flags are equal.
fn are_same(one: &ZeroVec<'_, Flag>, other: &ZeroVec<'_, Flag>) -> bool {
    *one == *other
}

/// Other bytes of the same flags are equal.
#[test]
fn encodings_of_flags() {
    let (one, other) = ([0, 1, 1, 0], [0, 255, 128, 0]);
    let same = are_same(&lent_flags(&one), &lent_flags(&other));
    expect(same, "the same flags");
}
