//! Packed numbers: plain loops over slices.
use crate::slice;

fn sum_of(numbers: impl Iterator<Item = u32>) -> u64 {
    numbers.fold(0, |sum: u64, x| sum.wrapping_add(x as u64))
}

#[unsafe(no_mangle)]
unsafe extern "C" fn rust_read_8(bytes: *const u8, len: usize) -> u64 {
    sum_of(unsafe { slice(bytes, len) }.iter().map(|x| *x as u32))
}

#[unsafe(no_mangle)]
unsafe extern "C" fn rust_read_16(bytes: *const u8, len: usize) -> u64 {
    let cells = unsafe { slice(bytes, len) }.chunks_exact(2);
    sum_of(cells.map(|cell| u16::from_le_bytes([cell[0], cell[1]]) as u32))
}

#[unsafe(no_mangle)]
unsafe extern "C" fn rust_read_32(bytes: *const u8, len: usize) -> u64 {
    let cells = unsafe { slice(bytes, len) }.chunks_exact(4);
    sum_of(cells.map(|cell| u32::from_le_bytes([cell[0], cell[1], cell[2], cell[3]])))
}

fn character(cell: &[u8]) -> Option<char> {
    char::from_u32(u32::from_le_bytes([cell[0], cell[1], cell[2], 0]))
}

/// Tests all cells first, as when a vector is made from bytes.
#[unsafe(no_mangle)]
unsafe extern "C" fn rust_read_characters(bytes: *const u8, len: usize) -> u64 {
    let bytes = unsafe { slice(bytes, len) };
    if bytes.chunks_exact(3).any(|cell| character(cell).is_none()) {
        return u64::MAX;
    }
    sum_of(bytes.chunks_exact(3).map_while(character).map(|c| c as u32))
}

#[unsafe(no_mangle)]
unsafe extern "C" fn rust_read_places(
    bytes: *const u8,
    len: usize,
    places: *const u32,
    count: usize,
) -> u64 {
    let (bytes, places) = unsafe { (slice(bytes, len), slice(places, count)) };
    let at = |i: usize| {
        bytes.get(2 * i..2 * i + 2).map_or(1, |cell| u16::from_le_bytes([cell[0], cell[1]]))
    };
    sum_of(places.iter().map(|i| at(*i as usize) as u32))
}

#[unsafe(no_mangle)]
unsafe extern "C" fn rust_equal_16(a: *const u8, a_len: usize, b: *const u8, b_len: usize) -> u64 {
    let (a, b): (&[u16], &[u16]) =
        unsafe { (slice(a.cast(), a_len / 2), slice(b.cast(), b_len / 2)) };
    (a == b) as u64
}

/// Searches a slice of numbers that are not packed.
fn places_of<T: Ord + Copy>(numbers: &[T], wanted: &[T]) -> u64 {
    sum_of(wanted.iter().map(|x| numbers.binary_search(x).unwrap_or_else(|place| place) as u32))
}

#[unsafe(no_mangle)]
unsafe extern "C" fn rust_search_32(
    numbers: *const u8,
    len: usize,
    wanted: *const u32,
    count: usize,
) -> u64 {
    let (numbers, wanted): (&[u32], _) =
        unsafe { (slice(numbers.cast(), len / 4), slice(wanted, count)) };
    places_of(numbers, wanted)
}

#[unsafe(no_mangle)]
unsafe extern "C" fn rust_search_16(
    numbers: *const u8,
    len: usize,
    wanted: *const u16,
    count: usize,
) -> u64 {
    let (numbers, wanted): (&[u16], _) =
        unsafe { (slice(numbers.cast(), len / 2), slice(wanted, count)) };
    places_of(numbers, wanted)
}
