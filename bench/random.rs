//! Pseudo-random numbers from a fixed seed, so that every run has the same.

use crate::versions::P;

/// The ends of the field, of its halves of 32 bits and of a word, and their neighbours.
pub const EDGES: [u64; 22] = [
    0,
    1,
    2,
    3,
    (1 << 29) - 1,
    1 << 29,
    (1 << 29) + 1,
    (1 << 32) - 1,
    1 << 32,
    (1 << 32) + 1,
    (1 << 60) - 1,
    1 << 60,
    P / 2,
    P - 2,
    P - 1,
    P,
    P + 1,
    P + 2,
    1 << 63,
    2 * P,
    u64::MAX - 1,
    u64::MAX,
];

/// The generator splitmix64.
pub struct Random(u64);

impl Random {
    pub fn new(seed: u64) -> Random {
        Random(seed)
    }

    /// Any word.
    pub fn word(&mut self) -> u64 {
        self.0 = self.0.wrapping_add(0x9e37_79b9_7f4a_7c15);
        let z = self.0;
        let z = (z ^ (z >> 30)).wrapping_mul(0xbf58_476d_1ce4_e5b9);
        let z = (z ^ (z >> 27)).wrapping_mul(0x94d0_49bb_1331_11eb);
        z ^ (z >> 31)
    }

    pub fn below(&mut self, bound: u64) -> u64 {
        self.word() % bound
    }

    /// A number of the field.
    pub fn element(&mut self) -> u64 {
        self.below(P)
    }

    /// A number of the field, a small one, an edge or its neighbour, or any word, which is seldom below P.
    pub fn mixed(&mut self) -> u64 {
        match self.below(8) {
            0..=3 => self.element(),
            4 | 5 => self.element() >> self.below(61),
            6 => EDGES[self.below(EDGES.len() as u64) as usize]
                .wrapping_add(self.below(5))
                .wrapping_sub(2),
            _ => self.word(),
        }
    }
}
