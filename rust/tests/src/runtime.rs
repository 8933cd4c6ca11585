//! The parts of Rattle's std that `ucptab_table` and `examples` need as modules of this crate, and random
//! numbers.

pub(crate) use crate::support::AllocError;
use alloc::string::String;
use core::fmt;

/// A text that grows, or an error if an allocation fails.
pub(crate) trait Text {
    fn write_fmt(&mut self, arguments: fmt::Arguments<'_>) -> Result<(), AllocError>;
}

impl Text for String {
    fn write_fmt(&mut self, arguments: fmt::Arguments<'_>) -> Result<(), AllocError> {
        fmt::write(&mut Growing(self), arguments).map_err(|_| AllocError)
    }
}

/// A text that Rust's formatter can write to.
struct Growing<'a>(&'a mut String);

impl fmt::Write for Growing<'_> {
    fn write_str(&mut self, text: &str) -> fmt::Result {
        self.0.try_reserve(text.len()).map_err(|_| fmt::Error)?;
        self.0.push_str(text);
        Ok(())
    }
}

/// The items of an iterator as a vector.
pub(crate) trait Listed: Iterator + Sized {
    fn listed(self) -> Result<alloc::vec::Vec<Self::Item>, AllocError> {
        Ok(self.collect())
    }
}

impl<I: Iterator> Listed for I {}

/// The random numbers of PCG XSH RR 64/32.
pub(crate) struct Pcg32(u64, u64);

impl Pcg32 {
    pub(crate) fn new(state: u64, stream: u64) -> Pcg32 {
        let mut made = Pcg32(state, stream << 1 | 1);
        made.0 = made.0.wrapping_add(made.1);
        made.next_u32();
        made
    }

    pub(crate) fn next_u32(&mut self) -> u32 {
        let state = self.0;
        self.0 = state.wrapping_mul(6_364_136_223_846_793_005).wrapping_add(self.1);
        ((((state >> 18) ^ state) >> 27) as u32).rotate_right((state >> 59) as u32)
    }
}

/// The table of a text.
#[cfg(feature = "toml")]
pub(crate) fn table_from_str(text: &str) -> Result<toml::value::Table, toml::de::Error> {
    toml::from_str(text)
}
