//! Numbers by chance from a seed, the same on every machine (xorshift).

pub struct Random(u64);

impl Random {
    pub fn new(seed: u64) -> Random {
        Random(seed.wrapping_mul(0x9e37_79b9_7f4a_7c15) | 1)
    }

    pub fn next(&mut self) -> u64 {
        self.0 ^= self.0 << 13;
        self.0 ^= self.0 >> 7;
        self.0 ^= self.0 << 17;
        self.0
    }

    pub fn below(&mut self, n: usize) -> usize {
        (self.next() >> 11) as usize % n
    }

    pub fn one<'a, T>(&mut self, of: &'a [T]) -> &'a T {
        &of[self.below(of.len())]
    }

    /// A word that is small, near 2^62, or anything.
    pub fn word(&mut self) -> u64 {
        match self.below(4) {
            0 => self.next() % 300,
            1 => (1 << 62) - 2 + self.next() % 4,
            _ => self.next(),
        }
    }
}
