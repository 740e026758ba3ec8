//! Seeded input.

use crate::P;

/// Words at the limits, the most telling first.
pub const LIMITS: [u32; 8] = [0, P - 1, 1, 2, P / 2, P / 2 + 1, P - 2, 11];

/// Words that are not below p.
pub const UNREDUCED: [u32; 4] = [P, P + 1, 1 << 31, u32::MAX];

/// splitmix64, from this seed.
pub struct Random(pub u64);

impl Random {
    pub fn number(&mut self) -> u64 {
        self.0 = self.0.wrapping_add(0x9e3779b97f4a7c15);
        let mut z = self.0;
        z = (z ^ (z >> 30)).wrapping_mul(0xbf58476d1ce4e5b9);
        z = (z ^ (z >> 27)).wrapping_mul(0x94d049bb133111eb);
        z ^ (z >> 31)
    }

    pub fn below(&mut self, bound: u32) -> u32 {
        (((self.number() >> 32) * bound as u64) >> 32) as u32
    }

    /// Words of any value, as they may stand in a slice before a call.
    pub fn stale(&mut self, count: usize) -> Vec<u32> {
        (0..count).map(|_| self.number() as u32).collect()
    }

    /// A word below p, a limit now and then.
    pub fn word(&mut self) -> u32 {
        match self.below(8) {
            0 => LIMITS[self.below(8) as usize],
            _ => self.below(P),
        }
    }

    pub fn words(&mut self, count: usize) -> Vec<u32> {
        (0..count).map(|_| self.word()).collect()
    }

    /// So many words of elements, some of them base words.
    pub fn elements(&mut self, count: usize) -> Vec<u32> {
        let mut words = self.words(count);
        for element in words.chunks_mut(4) {
            if self.below(4) == 0 {
                element[1..].fill(0);
            }
        }
        words
    }
}
