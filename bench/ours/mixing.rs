//! A checksum for lists of numbers.

/// Returns the checksum after one more number. It depends on the order of the numbers.
#[inline(always)]
pub fn mixed(sum: u64, number: u32) -> u64 {
    (sum ^ number as u64).wrapping_mul(0x100_0000_01B3)
}
