//! Integers as packed values, lowest byte first, with negative numbers in two's complement. Any
//! bytes of the right width are a value.

use crate::icu_zerovec::ule::AsULE;
use crate::support::prelude::*;

impl AsULE for u8 {
    const WIDTH: usize = 1;

    #[inline]
    fn to_unaligned(self) -> [u8; 4] {
        [self, 0, 0, 0]
    }

    #[inline]
    fn from_unaligned(bytes: &[u8]) -> Option<u8> {
        Some(bytes[0])
    }
}

impl AsULE for u16 {
    const WIDTH: usize = 2;

    #[inline]
    fn to_unaligned(self) -> [u8; 4] {
        let [a, b] = self.to_le_bytes();
        [a, b, 0, 0]
    }

    #[inline]
    fn from_unaligned(bytes: &[u8]) -> Option<u16> {
        Some(u16::from_le_bytes([bytes[0], bytes[1]]))
    }
}

impl AsULE for u32 {
    const WIDTH: usize = 4;

    #[inline]
    fn to_unaligned(self) -> [u8; 4] {
        self.to_le_bytes()
    }

    #[inline]
    fn from_unaligned(bytes: &[u8]) -> Option<u32> {
        Some(u32::from_le_bytes([bytes[0], bytes[1], bytes[2], bytes[3]]))
    }
}

impl AsULE for i8 {
    const WIDTH: usize = 1;

    #[inline]
    fn to_unaligned(self) -> [u8; 4] {
        let [a] = self.to_le_bytes();
        [a, 0, 0, 0]
    }

    #[inline]
    fn from_unaligned(bytes: &[u8]) -> Option<i8> {
        Some(i8::from_le_bytes([bytes[0]]))
    }
}

impl AsULE for i16 {
    const WIDTH: usize = 2;

    #[inline]
    fn to_unaligned(self) -> [u8; 4] {
        let [a, b] = self.to_le_bytes();
        [a, b, 0, 0]
    }

    #[inline]
    fn from_unaligned(bytes: &[u8]) -> Option<i16> {
        Some(i16::from_le_bytes([bytes[0], bytes[1]]))
    }
}

impl AsULE for i32 {
    const WIDTH: usize = 4;

    #[inline]
    fn to_unaligned(self) -> [u8; 4] {
        self.to_le_bytes()
    }

    #[inline]
    fn from_unaligned(bytes: &[u8]) -> Option<i32> {
        Some(i32::from_le_bytes([bytes[0], bytes[1], bytes[2], bytes[3]]))
    }
}
