//! Packed vectors: the values in bytes, conversions, comparisons and searches.

use crate::icu_zerovec::iter::Iter;
use crate::icu_zerovec::ule::{AsULE, UleError};
use crate::icu_zerovec::{MemoryError, PotentialCodePoint, ZeroSlice, ZeroVec, raw};
use crate::memory::support::{expect_done, expect_same, given, say_refused};
use crate::refusals::{each_refused, none_asked, say};
use crate::support::prelude::*;
use core::fmt::Debug;

// The functions of packed vectors and views that several tests call.

/// Returns the vector that borrows these bytes, which must be values.
pub fn lent_of<'a, T: AsULE>(bytes: &'a [u8]) -> ZeroVec<'a, T> {
    given(ZeroVec::<T>::parse_bytes(bytes))
}

/// Returns the vector of these values.
pub fn packed_of<T: AsULE>(values: &[T]) -> Result<ZeroVec<'static, T>, MemoryError> {
    ZeroVec::alloc_from_slice(values)
}

/// Returns the view of a vector.
pub fn view_of<'a, T: AsULE>(vector: &'a ZeroVec<'_, T>) -> ZeroSlice<'a, T> {
    vector.as_slice()
}

/// The number of values, whether there are none, and the first and the last value.
pub type Ends<T> = (usize, bool, Option<T>, Option<T>);

/// Returns the ends of a vector.
pub fn ends_of<T: AsULE>(vector: &ZeroVec<'_, T>) -> Ends<T> {
    let (first, last) = (vector.first(), vector.last());
    (vector.len(), vector.is_empty(), first, last)
}

// The values in bytes, by each function that reads them, and the bytes that values pack to.

/// Returns the ends of a view.
fn ends_of_view<T: AsULE>(view: ZeroSlice<'_, T>) -> Ends<T> {
    (view.len(), view.is_empty(), view.first(), view.last())
}

/// Returns the last value of the vector that a clone of a view gives.
fn last_of_clone<T: AsULE>(view: ZeroSlice<'_, T>) -> Option<T> {
    let clone = view.clone();
    clone.as_zerovec().last()
}

/// Returns the value that `at` returns for an index, if the index is less than the length.
fn known_at<T: AsULE>(view: ZeroSlice<'_, T>, place: usize) -> Option<T> {
    if place < view.len() {
        Some(view.at(place))
    } else {
        None
    }
}

/// The results for an index: of `get` on a vector, of `get` on its view, and of `at` on its view.
type Found<T> = (Option<T>, Option<T>, Option<T>);

/// Returns the value at an index, by each of these functions.
fn at_place<T: AsULE>(vector: &ZeroVec<'_, T>, place: usize) -> Found<T> {
    let view = view_of(vector);
    (vector.get(place), view.get(place), known_at(view, place))
}

/// Returns the next value, and before it how many values are left, by two functions.
fn next_of<T: AsULE>(items: &mut Iter<'_, T>) -> (usize, usize, Option<T>) {
    (items.len(), items.size_hint().0, items.next())
}

/// Expects the values at their indices, and none after them.
fn expect_places<T: AsULE + Debug + PartialEq>(vector: &ZeroVec<'_, T>, values: &[T]) {
    for place in 0..=values.len() {
        let want = values.get(place).copied();
        expect_same(at_place(vector, place), (want, want, want), "a place");
    }
}

/// Expects the iterator to yield these values.
fn expect_items<T: AsULE + Debug + PartialEq>(mut items: Iter<'_, T>, values: &[T]) {
    for place in 0..=values.len() {
        let left = values.len() - place;
        let want = (left, left, values.get(place).copied());
        expect_same(next_of(&mut items), want, "values to come");
    }
}

/// Expects these bytes to be these values, by each function that reads them.
fn expect_values<T: AsULE + Debug + PartialEq>(bytes: &[u8], values: &[T]) {
    let vector = lent_of::<T>(bytes);
    let view = view_of(&vector);
    expect_same(vector.as_bytes(), bytes, "the bytes");
    expect_same(view.as_bytes(), bytes, "the bytes of the view");
    let (first, last) = (values.first().copied(), values.last().copied());
    let want: Ends<T> = (values.len(), values.is_empty(), first, last);
    expect_same(ends_of(&vector), want, "a vector");
    expect_same(ends_of_view(view), want, "a view");
    expect_same(last_of_clone(view), last, "a clone of the view");
    expect_places(&vector, values);
    expect_items(vector.iter(), values);
    expect_items(view.iter(), values);
}

/// Calls: `ZeroVec::parse_bytes`, `ZeroVec::len`, `ZeroVec::is_empty`, `ZeroVec::get`,
/// `ZeroVec::first`, `ZeroVec::last`, `ZeroVec::iter`, `ZeroVec::as_bytes`, `ZeroVec::as_slice`,
/// `ZeroSlice::len`, `ZeroSlice::is_empty`, `ZeroSlice::get`, `ZeroSlice::at`, `ZeroSlice::first`,
/// `ZeroSlice::last`, `ZeroSlice::iter`, `ZeroSlice::as_bytes`, `ZeroSlice::as_zerovec`,
/// `Iter::next`, `Iter::len`, `Iter::size_hint`.
#[test]
fn reads_quiet() {
    none_asked(|| {
        say("call");
        expect_values::<u32>(&[0x41, 0, 0, 0, 0x42, 0, 0, 0], &[0x41, 0x42]);
        expect_values::<u32>(&[], &[]);
        say("done");
    });
}

/// Says that the call is done. Expects a vector of these bytes, or says `refused` if an
/// allocation failed.
fn expect_made<T: AsULE>(made: Result<ZeroVec<'_, T>, MemoryError>, bytes: &[u8]) {
    say("done");
    match made {
        Ok(vector) => expect_same(vector.as_bytes(), bytes, "the bytes"),
        Err(error) => say_refused(error),
    }
}

/// Expects these bytes to be these values, and the values to pack to these bytes, unless an
/// allocation fails.
fn expect_type<T: AsULE + Debug + PartialEq>(bytes: &[u8], values: &[T]) {
    expect_values(bytes, values);
    say("call");
    let made = packed_of(values);
    expect_made(made, bytes);
}

/// The lowest byte is first.
///
/// Calls: `ZeroVec::alloc_from_slice`.
#[test]
fn numbers_refused() {
    each_refused(|| {
        expect_type::<u8>(&[0, 0x7f, 0xff], &[0, 127, 255]);
        let bytes = [0x34, 0x12, 0xff, 0, 0xff, 0xff];
        expect_type::<u16>(&bytes, &[0x1234, 255, 65535]);
        let bytes = [0x78, 0x56, 0x34, 0x12, 0, 0, 0, 0x80];
        expect_type::<u32>(&bytes, &[0x1234_5678, 0x8000_0000]);
        expect_type::<i8>(&[0, 0x7f, 0x80, 0xff], &[0, 127, -128, -1]);
        let bytes = [0xfe, 0xff, 0, 0x80, 0xff, 0x7f];
        expect_type::<i16>(&bytes, &[-2, -32768, 32767]);
        let bytes = [0xfd, 0xff, 0xff, 0xff, 0, 0, 0, 0x80];
        expect_type::<i32>(&bytes, &[-3, -2_147_483_648]);
    });
}

/// A code point takes three bytes.
///
/// Calls: `ZeroVec::alloc_from_slice`.
#[test]
fn code_points_refused() {
    each_refused(|| {
        let bytes = [0x41, 0, 0, 0xff, 0xd7, 0, 0, 0xe0, 0, 0xff, 0xff, 0x10];
        let values = ['A', '\u{d7ff}', '\u{e000}', '\u{10ffff}'];
        expect_type::<char>(&bytes, &values);
        let values = [
            PotentialCodePoint::from_u24(0x41),
            PotentialCodePoint::from_u24(0xd800),
            PotentialCodePoint::from_u24(0xff_ffff),
        ];
        let bytes = [0x41, 0, 0, 0, 0xd8, 0, 0xff, 0xff, 0xff];
        expect_type::<PotentialCodePoint>(&bytes, &values);
    });
}

/// The iterator over the characters of a text does not know how many there are, so the vector grows
/// as they are yielded.
///
/// Calls: `ZeroVec::alloc_from_iter`.
#[test]
fn alloc_from_iter_refused() {
    each_refused(|| {
        say("call");
        let made = ZeroVec::<char>::alloc_from_iter("AZ\u{1f600}az".chars());
        let bytes = [0x41, 0, 0, 0x5a, 0, 0, 0, 0xf6, 1, 0x61, 0, 0, 0x7a, 0, 0];
        expect_made(made, &bytes);
    });
}

/// Calls: `ZeroVec::try_clone`, `ZeroVec::try_into_owned`.
#[test]
fn owned_copies_refused() {
    each_refused(|| {
        let bytes = [0x34, 0x12, 255, 0];
        let vector = lent_of::<u16>(&bytes);
        say("call");
        let cloned = vector.try_clone();
        expect_made(cloned, &bytes);
        say("call");
        let owned = vector.try_into_owned();
        expect_made(owned, &bytes);
    });
}

/// Calls: `AsULE::to_unaligned`, `AsULE::from_unaligned`.
#[test]
fn packed_values_quiet() {
    none_asked(|| {
        say("call");
        let packed = 0x1234_u16.to_unaligned();
        let read = u16::from_unaligned(&[0x34, 0x12]);
        let want = ([0x34, 0x12, 0, 0], Some(0x1234));
        expect_done((packed, read), want, "a value, packed and read");
    });
}

/// Reads with an end, or of an index that is known to be inside.
///
/// Calls: `ZeroVec::from_packed`, `ZeroSlice::get_below`, `ZeroSlice::get_likely_below`,
/// `ZeroSlice::get_known`, `ZeroSlice::prefix`, `icu_zerovec::cell_at`, `icu_zerovec::cell_below`,
/// `icu_zerovec::likely_cell_below`, `icu_zerovec::cell_known`.
#[test]
fn known_reads_quiet() {
    none_asked(|| {
        let bytes = [0x41, 0, 0x42, 0, 0x43, 0];
        say("call");
        let vector = ZeroVec::<u16>::from_packed(&bytes);
        let view = view_of(&vector);
        let below = [
            view.get_below(2, 1),
            view.get_below(2, 2),
            view.get_below(0, 0),
            view.get_likely_below(2, 1),
            view.get_likely_below(2, 2),
        ];
        let two = view.prefix(2);
        let prefix = [two.get(1), two.get(2), view.prefix(0).get(0)];
        let known = [
            view.get_known(2, true),
            view.get_known(2, false),
            view.get_known(3, false),
        ];
        let cells = [
            Some(raw::cell_at(&bytes, 2, 1)),
            raw::cell_below(&bytes, 2, 1, 1),
            raw::likely_cell_below(&bytes, 2, 1, 1),
            raw::cell_known(&bytes, 2, 2, true),
            raw::cell_known(&bytes, 2, 3, false),
        ];
        say("done");
        let want = [Some(0x42), None, None, Some(0x42), None];
        expect_same(below, want, "values below an end");
        expect_same(prefix, [Some(0x42), None, None], "the first values");
        expect_same(
            known,
            [Some(0x43), Some(0x43), None],
            "values at a known index",
        );
        let want: [Option<&[u8]>; 5] = [Some(&[0x42, 0]), None, None, Some(&[0x43, 0]), None];
        expect_same(cells, want, "cells");
    });
}

// The same bytes as values of another type of the same width.

/// Returns the vector as one of another type of the same width.
fn converted<'a, T: AsULE, P: AsULE>(vector: ZeroVec<'a, T>) -> Result<ZeroVec<'a, P>, UleError> {
    vector.try_into_converted::<P>()
}

/// Reads these bytes as values of one type, converts them to another type of the same width, and
/// returns the ends.
fn ends_of_converted<T: AsULE, P: AsULE>(bytes: &[u8]) -> Result<Ends<P>, UleError> {
    match converted::<T, P>(lent_of(bytes)) {
        Ok(vector) => Ok(ends_of(&vector)),
        Err(error) => Err(error),
    }
}

/// -1 and 5 as signed numbers, or the greatest number and 5 as unsigned ones.
const NUMBERS: [u8; 8] = [0xff, 0xff, 0xff, 0xff, 5, 0, 0, 0];

/// A letter and an emoji.
const LETTERS: [u8; 6] = [0x41, 0, 0, 0, 0xf6, 1];

/// A letter, a surrogate, and a number above the code points.
const NO_CHARACTERS: [u8; 9] = [0x41, 0, 0, 0, 0xd8, 0, 0, 0, 0x11];

/// Calls: `ZeroVec::try_into_converted`.
#[test]
fn conversions_quiet() {
    none_asked(|| {
        say("call");
        let found = ends_of_converted::<u32, i32>(&NUMBERS);
        let want = Ok((2, false, Some(-1), Some(5)));
        expect_same(found, want, "numbers with sign");
        let found = ends_of_converted::<i32, u32>(&NUMBERS);
        let want = Ok((2, false, Some(0xffff_ffff), Some(5)));
        expect_same(found, want, "numbers without");
        let found = ends_of_converted::<char, PotentialCodePoint>(&LETTERS);
        let letter = PotentialCodePoint::from_u24(0x41);
        let last = PotentialCodePoint::from_u24(0x1_f600);
        let want = Ok((2, false, Some(letter), Some(last)));
        expect_same(found, want, "code points");
        let found = ends_of_converted::<PotentialCodePoint, char>(&LETTERS);
        let want = Ok((2, false, Some('A'), Some('\u{1f600}')));
        expect_same(found, want, "characters");
        let found = ends_of_converted::<PotentialCodePoint, char>(&NO_CHARACTERS);
        expect_done(found, Err(UleError::Cell(1)), "the first surrogate");
    });
}

/// Takes over these bytes as unsigned numbers, converts them to signed numbers without copying, and
/// returns the ends.
fn ends_of_taken(bytes: Vec<u8>) -> Ends<i32> {
    let unsigned = given(ZeroVec::<u32>::parse_owned(bytes));
    let signed = given(converted::<u32, i32>(unsigned));
    ends_of(&given(signed.try_into_owned()))
}

/// A vector that owns its bytes still owns them after a conversion, and they are unchanged.
///
/// Calls: `ZeroVec::parse_owned`, `ZeroVec::try_into_converted`, `ZeroVec::try_into_owned`.
#[test]
fn owned_bytes_quiet() {
    none_asked(|| {
        let Ok(bytes) = Vec::from_slice(&NUMBERS) else {
            return;
        };
        say("call");
        let ends = ends_of_taken(bytes);
        expect_done(ends, (2, false, Some(-1), Some(5)), "-1 and 5");
    });
}

// Binary searches.

/// Expects this index of a value among those in the bytes, in a vector and in its view.
fn expect_place<T: AsULE + Debug + Ord>(bytes: &[u8], x: T, want: Result<usize, usize>) {
    let vector = lent_of::<T>(bytes);
    let places = [vector.binary_search(&x), view_of(&vector).binary_search(&x)];
    expect_same((x, places), (x, [want; 2]), "a place");
}

/// The numbers 10, 20, 30 and 256.
const TENS: [u8; 8] = [10, 0, 20, 0, 30, 0, 0, 1];

/// Numbers, and their indices among these.
static PLACES: [(u16, Result<usize, usize>); 9] = [
    (10, Ok(0)),
    (20, Ok(1)),
    (30, Ok(2)),
    (256, Ok(3)),
    (5, Err(0)),
    (15, Err(1)),
    (25, Err(2)),
    (31, Err(3)),
    (257, Err(4)),
];

/// The numbers -128, -1, 0 and 127.
const SIGNED: [u8; 4] = [0x80, 0xff, 0, 0x7f];

/// Calls: `ZeroVec::binary_search`, `ZeroSlice::binary_search`.
#[test]
fn searches_quiet() {
    none_asked(|| {
        say("call");
        for (x, want) in PLACES.iter() {
            expect_place(&TENS, *x, *want);
        }
        expect_place::<i8>(&[], 7, Err(0));
        expect_place::<i8>(&SIGNED, -1, Ok(1));
        expect_place::<i8>(&SIGNED, -2, Err(1));
        say("done");
    });
}
