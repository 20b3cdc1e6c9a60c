//! Draws that are the same in every run and on every machine (bench/names, bench/xml).

const SEED: u64 = 88_172_645_463_325_252;

pub struct Draws(u64);

impl Draws {
    pub fn begin() -> Draws {
        Draws(SEED)
    }

    /// A number below the end.
    pub fn below(&mut self, end: usize) -> usize {
        self.0 ^= self.0 << 13;
        self.0 ^= self.0 >> 7;
        self.0 ^= self.0 << 17;
        (self.0 >> 32) as usize % end
    }
}
