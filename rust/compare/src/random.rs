//! A small generator (splitmix64), so that a seed and a case number are enough
//! to repeat a case.

pub struct Random(u64);

impl Random {
    pub fn new(seed: u64) -> Self {
        Self(seed)
    }

    pub fn number(&mut self) -> u64 {
        self.0 = self.0.wrapping_add(0x9E37_79B9_7F4A_7C15);
        let mut mixed = self.0;
        mixed = (mixed ^ (mixed >> 30)).wrapping_mul(0xBF58_476D_1CE4_E5B9);
        mixed = (mixed ^ (mixed >> 27)).wrapping_mul(0x94D0_49BB_1331_11EB);
        mixed ^ (mixed >> 31)
    }

    /// From 0 up to but without the limit, which isn't 0.
    pub fn below(&mut self, limit: usize) -> usize {
        (self.number() % limit as u64) as usize
    }

    /// From the lowest to the highest, both included.
    pub fn between(&mut self, lowest: i64, highest: i64) -> i64 {
        let values = (i128::from(highest) - i128::from(lowest) + 1) as u128;
        (i128::from(lowest) + (u128::from(self.number()) % values) as i128) as i64
    }

    /// True in so many of a hundred cases.
    pub fn chance(&mut self, percent: usize) -> bool {
        self.below(100) < percent
    }

    pub fn pick<T: Copy>(&mut self, values: &[T]) -> T {
        values[self.below(values.len())]
    }

    pub fn byte(&mut self) -> u8 {
        self.number() as u8
    }

    pub fn bytes(&mut self, length: usize) -> Vec<u8> {
        let mut bytes = Vec::with_capacity(length + 8);
        while bytes.len() < length {
            bytes.extend_from_slice(&self.number().to_le_bytes());
        }
        bytes.truncate(length);
        bytes
    }

    /// A signed number of up to so many bits, short ones as often as long.
    pub fn signed(&mut self, bits: u32) -> i64 {
        let limit = 1_i64 << self.between(0, i64::from(bits));
        self.between(-limit, limit)
    }

    /// An odd number from 1 up to the highest, short ones as often as long.
    pub fn odd(&mut self, highest: i64) -> i64 {
        let bits = 63 - i64::from(highest.leading_zeros());
        let limit = highest.min(1 << (self.between(0, bits) + 1));
        (self.between(0, (limit - 1) / 2) * 2) + 1
    }
}
