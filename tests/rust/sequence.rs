// A fixed sequence of numbers, the same in every run: what the programs that measure draw their tables from.
#![allow(dead_code)]

pub struct Random(pub u64);

impl Random {
    pub fn new(seed: u64) -> Self {
        Random(seed.wrapping_mul(0x9E3779B97F4A7C15))
    }

    pub fn below(&mut self, n: u64) -> u64 {
        self.0 = self.0.wrapping_mul(6364136223846793005).wrapping_add(1442695040888963407);
        (self.0 >> 33) % n
    }

    pub fn between(&mut self, range: (u64, u64)) -> u64 {
        range.0 + self.below(range.1 + 1 - range.0)
    }
}
