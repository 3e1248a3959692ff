//! Pseudo-random numbers that are the same on every machine: a counter, and a mixing of its bits.

/// A sequence fixed by its seed.
pub struct Random {
    counter: u64,
}

impl Random {
    pub fn new(seed: u64) -> Self {
        Self { counter: seed }
    }

    /// The next 64 bits (the generator SplitMix64).
    pub fn bits(&mut self) -> u64 {
        self.counter = self.counter.wrapping_add(0x9e37_79b9_7f4a_7c15);
        let mut mixed = self.counter;
        mixed = (mixed ^ (mixed >> 30)).wrapping_mul(0xbf58_476d_1ce4_e5b9);
        mixed = (mixed ^ (mixed >> 27)).wrapping_mul(0x94d0_49bb_1331_11eb);
        mixed ^ (mixed >> 31)
    }

    /// A number from 0 to `limit` - 1; for the small limits used here as good as evenly.
    pub fn below(&mut self, limit: u64) -> u64 {
        self.bits() % limit
    }

    /// A place in a list of so many.
    pub fn index(&mut self, many: usize) -> usize {
        self.below(many as u64) as usize
    }

    pub fn byte(&mut self) -> u8 {
        self.below(256) as u8
    }

    pub fn one_of<T: Copy>(&mut self, choices: &[T]) -> T {
        choices[self.index(choices.len())]
    }

    /// A number from `low` to `high`, both of them included.
    pub fn between(&mut self, low: f64, high: f64) -> f64 {
        let steps = 1_u64 << 53;
        let part = self.below(steps + 1) as f64 / steps as f64;
        (low + (high - low) * part).clamp(low, high)
    }

    /// The number with either sign.
    pub fn signed(&mut self, x: f64) -> f64 {
        if self.below(2) == 0 { x } else { -x }
    }

    /// The same things in another order, each order as likely as any other.
    pub fn shuffled<T>(&mut self, mut things: Vec<T>) -> Vec<T> {
        for last in (1..things.len()).rev() {
            things.swap(last, self.index(last + 1));
        }
        things
    }
}
