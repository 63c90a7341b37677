//! Pseudo-random numbers: a counter whose steps are mixed. The same seed gives the same numbers everywhere.

use crate::mix::mix;

pub struct Random {
    counter: u64,
}

/// Bits of floats at which something changes: zeros, subnormals, limits, infinities, NaNs.
const SPECIAL: [u32; 16] = [
    0x0000_0000, // 0
    0x0000_0001, // the smallest subnormal
    0x0080_0000, // the smallest normal
    0x3980_0000, // 1/4096
    0x3F00_0000, // 0.5
    0x3F80_0000, // 1
    0x3FC9_0FDB, // half of pi
    0x4049_0FDA, // below pi
    0x4049_0FDB, // pi
    0x40C9_0FDB, // twice pi
    0x4480_0000, // 1,024
    0x4480_0001, // above 1,024
    0x7F7F_FFFF, // the largest
    0x7F80_0000, // infinity
    0x7F80_0001, // a signalling NaN
    0x7FC0_0000, // a quiet NaN
];

impl Random {
    pub fn new(seed: u64) -> Self {
        Random { counter: mix(seed) }
    }

    fn next(&mut self) -> u64 {
        self.counter = self.counter.wrapping_add(1);
        mix(self.counter)
    }

    pub fn bits(&mut self) -> u32 {
        (self.next() >> 32) as u32
    }

    pub fn byte(&mut self) -> u8 {
        self.bits() as u8
    }

    /// A whole number below `bound`.
    pub fn below(&mut self, bound: usize) -> usize {
        ((u128::from(self.next()) * bound as u128) >> 64) as usize
    }

    /// True `part` times out of `whole`.
    pub fn chance(&mut self, part: usize, whole: usize) -> bool {
        self.below(whole) < part
    }

    /// A float from `low` to `high`.
    pub fn between(&mut self, low: f32, high: f32) -> f32 {
        low + (high - low) * (self.bits() >> 8) as f32 / (1 << 24) as f32
    }

    /// A float of at most `size`, now and then a special one or one of any bits.
    pub fn float(&mut self, size: f32) -> f32 {
        match self.below(8) {
            0 => f32::from_bits(SPECIAL[self.below(SPECIAL.len())] | self.bits() & 0x8000_0000),
            1 => f32::from_bits(self.bits()),
            _ => self.between(-size, size),
        }
    }
}
