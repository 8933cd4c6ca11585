//! Packed vectors: reading in order and by index, comparing, and searching.

use icu_zerovec::ZeroVec;
use icu_zerovec::ule::AsULE;

/// Returns the sum of the numbers.
fn sum_of<T: AsULE + Into<u64>>(numbers: &ZeroVec<'_, T>) -> u64 {
    let mut sum = 0u64;
    for x in numbers.iter() {
        sum = sum.wrapping_add(x.into());
    }
    sum
}

/// Returns the sum of the numbers that are packed in these bytes.
fn sum_in<T: AsULE + Into<u64>>(bytes: &[u8]) -> u64 {
    match ZeroVec::<T>::parse_bytes(bytes) {
        Ok(numbers) => sum_of(&numbers),
        Err(_) => u64::MAX,
    }
}

/// Returns the sum of all 8-bit numbers.
#[unsafe(no_mangle)]
pub extern "C" fn ours_read_8(bytes: &[u8]) -> u64 {
    sum_in::<u8>(bytes)
}

/// Returns the sum of all 16-bit numbers.
#[unsafe(no_mangle)]
pub extern "C" fn ours_read_16(bytes: &[u8]) -> u64 {
    sum_in::<u16>(bytes)
}

/// Returns the sum of all 32-bit numbers.
#[unsafe(no_mangle)]
pub extern "C" fn ours_read_32(bytes: &[u8]) -> u64 {
    sum_in::<u32>(bytes)
}

/// Returns the sum of all characters, which are validated first.
#[unsafe(no_mangle)]
pub extern "C" fn ours_read_characters(bytes: &[u8]) -> u64 {
    sum_in::<char>(bytes)
}

/// Returns the sum of the numbers at these indices, with 1 for each index past the end.
#[unsafe(no_mangle)]
pub extern "C" fn ours_read_places(bytes: &[u8], places: &[u32]) -> u64 {
    let Ok(numbers) = ZeroVec::<u16>::parse_bytes(bytes) else {
        return u64::MAX;
    };
    let mut sum = 0u64;
    for place in places {
        sum = sum.wrapping_add(numbers.get(*place as usize).unwrap_or(1) as u64);
    }
    sum
}

/// Returns 1 if two vectors of 16-bit numbers are equal, and 0 otherwise.
#[unsafe(no_mangle)]
pub extern "C" fn ours_equal_16(a: &[u8], b: &[u8]) -> u64 {
    match (
        ZeroVec::<u16>::parse_bytes(a),
        ZeroVec::<u16>::parse_bytes(b),
    ) {
        (Ok(a), Ok(b)) => (a == b) as u64,
        _ => u64::MAX,
    }
}

/// Returns the sum of the indices that a binary search returns for the wanted numbers, found or
/// not.
fn searched<T: AsULE + Ord>(numbers: &ZeroVec<'_, T>, wanted: &[T]) -> u64 {
    let mut sum = 0u64;
    for x in wanted {
        sum = sum.wrapping_add(match numbers.binary_search(x) {
            Ok(place) => place as u64,
            Err(place) => place as u64,
        });
    }
    sum
}

/// Searches for 32-bit numbers, and returns the sum of the indices, found or not.
#[unsafe(no_mangle)]
pub extern "C" fn ours_search_32(bytes: &[u8], wanted: &[u32]) -> u64 {
    match ZeroVec::parse_bytes(bytes) {
        Ok(numbers) => searched(&numbers, wanted),
        Err(_) => u64::MAX,
    }
}

/// Searches for 16-bit numbers, and returns the sum of the indices, found or not.
#[unsafe(no_mangle)]
pub extern "C" fn ours_search_16(bytes: &[u8], wanted: &[u16]) -> u64 {
    match ZeroVec::parse_bytes(bytes) {
        Ok(numbers) => searched(&numbers, wanted),
        Err(_) => u64::MAX,
    }
}
