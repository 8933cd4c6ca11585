//! How many bits a value has in a file.

use crate::host::*;
use crate::support::prelude::*;
use core::fmt;

/// How many bits a value has in a file (UCPTrieValueWidth).
#[derive(Clone, Copy, Debug, PartialEq, Eq)]
pub enum ValueWidth {
    Bits8,
    Bits16,
    Bits32,
}

impl ValueWidth {
    /// Returns the fewest bits that a value fits.
    pub fn of_value(value: u32) -> ValueWidth {
        if value < 0x100 {
            ValueWidth::Bits8
        } else if value < 0x1_0000 {
            ValueWidth::Bits16
        } else {
            ValueWidth::Bits32
        }
    }

    /// Returns the number of bits: 8, 16 or 32.
    pub fn bits(self) -> u32 {
        match self {
            ValueWidth::Bits8 => 8,
            ValueWidth::Bits16 => 16,
            ValueWidth::Bits32 => 32,
        }
    }

    /// Returns the number of bytes: 1, 2 or 4.
    pub fn bytes(self) -> usize {
        match self {
            ValueWidth::Bits8 => 1,
            ValueWidth::Bits16 => 2,
            ValueWidth::Bits32 => 4,
        }
    }

    /// Returns ICU's number of the width (UCPTRIE_VALUE_BITS_16, _32 and _8): 2, 0 or 1.
    pub fn code(self) -> u32 {
        match self {
            ValueWidth::Bits8 => 2,
            ValueWidth::Bits16 => 0,
            ValueWidth::Bits32 => 1,
        }
    }

    /// Returns whether a value has at most this many bits.
    pub fn fits(self, value: u32) -> bool {
        match self {
            ValueWidth::Bits8 => value < 0x100,
            ValueWidth::Bits16 => value < 0x1_0000,
            ValueWidth::Bits32 => true,
        }
    }
}

impl fmt::Display for ValueWidth {
    fn fmt(&self, f: &mut fmt::Formatter<'_>) -> fmt::Result {
        let bits = self.bits();
        write!(f, "{bits} bits")
    }
}
