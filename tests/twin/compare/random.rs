//! A deterministic generator of inputs: splitmix64.

use std::ops::RangeInclusive;

pub struct Random(u64);

impl Random {
    pub fn new(seed: u64) -> Self {
        Random(seed)
    }

    pub fn next(&mut self) -> u64 {
        self.0 = self.0.wrapping_add(0x9E37_79B9_7F4A_7C15);
        let mut mixed = self.0;
        mixed = (mixed ^ mixed >> 30).wrapping_mul(0xBF58_476D_1CE4_E5B9);
        mixed = (mixed ^ mixed >> 27).wrapping_mul(0x94D0_49BB_1331_11EB);
        mixed ^ mixed >> 31
    }

    /// A number below `bound`.
    pub fn below(&mut self, bound: usize) -> usize {
        (self.next() % bound as u64) as usize
    }

    pub fn byte(&mut self) -> u8 {
        self.next() as u8
    }

    pub fn flag(&mut self) -> bool {
        self.below(2) == 1
    }

    pub fn pick<T: Copy>(&mut self, from: &[T]) -> T {
        from[self.below(from.len())]
    }

    pub fn bytes(&mut self, length: usize) -> Vec<u8> {
        (0..length).map(|_| self.byte()).collect()
    }

    /// A number of the range: half of the time one of its two ends.
    pub fn within(&mut self, range: RangeInclusive<u32>) -> u32 {
        match self.below(4) {
            0 => *range.start(),
            1 => *range.end(),
            _ => range.start() + (self.next() % (u64::from(range.end() - range.start()) + 1)) as u32,
        }
    }

    pub fn byte_within(&mut self, range: RangeInclusive<u8>) -> u8 {
        self.within((*range.start()).into()..=(*range.end()).into()) as u8
    }

    pub fn word_within(&mut self, range: RangeInclusive<u16>) -> u16 {
        self.within((*range.start()).into()..=(*range.end()).into()) as u16
    }

    /// Any 16-bit number, its ends often.
    pub fn word(&mut self) -> u16 {
        self.word_within(0..=u16::MAX)
    }
}
