//! The algorithms of the Rust crate icu_collections in plain Rust, over the same data, for a driver
//! in C++.
//!
//! If the crate leaves out a bounds test, so does this code. A function that is given bytes that
//! are not UTF-8 returns `u64::MAX`.
mod packed;
mod ranges;
mod set_builder;
mod sets;
mod tries;
mod unit_tries;

/// The slice that a C++ caller passes as a pointer and a length.
///
/// # Safety
/// There are `len` values from `start` on, and they do not change while the slice is in use.
unsafe fn slice<'a, T>(start: *const T, len: usize) -> &'a [T] {
    unsafe { std::slice::from_raw_parts(start, len) }
}

/// Mixes one more number into `sum`; the result depends on the order of the numbers.
#[inline(always)]
fn mixed(sum: u64, number: u32) -> u64 {
    (sum ^ number as u64).wrapping_mul(0x100_0000_01B3)
}
