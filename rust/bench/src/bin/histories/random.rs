//! The draws' own numbers: the generator of crates/model/src/random.rt, number for number.

/// Xorshift on 64 bits.
pub struct Random(u64);

impl Random {
    /// A history's number is the seed of all that is drawn in it.
    pub fn seeded(seed: u32) -> Random {
        let mut random = Random(((u64::from(seed) + 1) * 2_654_435_769) ^ 11_400_714_819_323_198_485);
        for _ in 0..4 {
            random.next();
        }
        random
    }

    fn next(&mut self) -> u64 {
        self.0 ^= self.0 << 13;
        self.0 ^= self.0 >> 7;
        self.0 ^= self.0 << 17;
        self.0
    }

    /// Any word.
    pub fn word(&mut self) -> u32 {
        (self.next() >> 16) as u32
    }

    /// A number below n; 0 for n = 0, and a number is drawn then too.
    pub fn below(&mut self, n: u32) -> u32 {
        self.word().checked_rem(n).unwrap_or(0)
    }

    /// True once in n.
    pub fn once_in(&mut self, n: u32) -> bool {
        self.below(n) == 0
    }
}
