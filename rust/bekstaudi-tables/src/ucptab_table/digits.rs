//! Numbers, written in digits.

use crate::host::*;
use crate::support::prelude::*;
/// Returns the number that 1 to `most` digits of the base write, or `None` for any other bytes.
fn number_of(base: u32, most: usize, bytes: &[u8]) -> Option<u64> {
    if bytes.is_empty() || bytes.len() > most {
        return None;
    }
    let mut number = 0;
    for byte in bytes {
        let digit = char::from(*byte).to_digit(base)?;
        number = number * u64::from(base) + u64::from(digit);
    }
    Some(number)
}

/// Returns the number that 1 to 8 hexadecimal digits of either case write, or `None` for any other
/// bytes.
pub fn hexadecimal(bytes: &[u8]) -> Option<u32> {
    let number = number_of(16, 8, bytes)?;
    Some(number as u32)
}

/// Returns the number that 1 to 10 decimal digits write, or `None` for any other bytes.
pub fn decimal_number(bytes: &[u8]) -> Option<u64> {
    number_of(10, 10, bytes)
}
