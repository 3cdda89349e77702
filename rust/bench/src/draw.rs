//! Draws for the benchmark's inputs (splitmix64): the same seed gives the same input on every machine.

pub struct Draw(u64);

impl Draw {
    pub fn new(seed: u64) -> Draw {
        Draw(seed)
    }

    pub fn word(&mut self) -> u32 {
        self.0 = self.0.wrapping_add(0x9e37_79b9_7f4a_7c15);
        let mut z = self.0;
        z = (z ^ z >> 30).wrapping_mul(0xbf58_476d_1ce4_e5b9);
        z = (z ^ z >> 27).wrapping_mul(0x94d0_49bb_1331_11eb);
        ((z ^ z >> 31) >> 32) as u32
    }

    /// A number below n, which is not 0.
    pub fn below(&mut self, n: u32) -> u32 {
        ((u64::from(self.word()) * u64::from(n)) >> 32) as u32
    }

    /// A waiting time with this mean, at least 1 second.
    pub fn wait(&mut self, mean: f64) -> u32 {
        let part = (f64::from(self.word()) + 1.0) / 4_294_967_296.0;
        (-part.ln() * mean).clamp(1.0, 1e8) as u32
    }
}
