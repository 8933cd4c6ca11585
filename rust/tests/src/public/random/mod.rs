//! Random numbers, and damage by them.
#![allow(dead_code)]

/// A linear congruential generator, of which the upper bits are used.
pub struct Random(pub u64);

impl Random {
    pub fn below(&mut self, limit: usize) -> usize {
        self.0 =
            self.0.wrapping_mul(6_364_136_223_846_793_005).wrapping_add(1_442_695_040_888_963_407);
        (self.0 >> 33) as usize % limit
    }

    /// Returns one of these items.
    pub fn one_of<T: Copy>(&mut self, values: &[T]) -> T {
        values[self.below(values.len())]
    }

    /// Changes some of the bytes, or cuts them off.
    pub fn damage(&mut self, bytes: &mut Vec<u8>) {
        for _ in 0..=self.below(4) {
            let place = self.below(bytes.len());
            bytes[place] = [0, 0xFF, 0x80, self.below(256) as u8][self.below(4)];
        }
        if self.below(8) == 0 {
            bytes.truncate(self.below(bytes.len()));
        }
    }
}

/// Units of 16 bits that damaged bytes make.
pub fn damaged_units(random: &mut Random, units: &[u16]) -> Vec<u16> {
    let mut bytes: Vec<u8> = units.iter().flat_map(|it| it.to_le_bytes()).collect();
    random.damage(&mut bytes);
    bytes.chunks_exact(2).map(|it| u16::from_le_bytes([it[0], it[1]])).collect()
}
