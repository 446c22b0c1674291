//! Seeded numbers, the same on every machine (splitmix64).

/// State of the sequence.
#[derive(Clone, Debug)]
pub struct Rng {
    state: u64,
}

impl Rng {
    /// The sequence of a seed.
    pub fn new(seed: u64) -> Rng {
        Rng { state: seed }
    }

    /// Next 64 bits.
    pub fn word(&mut self) -> u64 {
        self.state = self.state.wrapping_add(0x9e37_79b9_7f4a_7c15);
        let mut mixed = self.state;
        mixed = (mixed ^ mixed >> 30).wrapping_mul(0xbf58_476d_1ce4_e5b9);
        mixed = (mixed ^ mixed >> 27).wrapping_mul(0x94d0_49bb_1331_11eb);
        mixed ^ mixed >> 31
    }

    /// Number from 0 to `count` − 1; `count` is at least 1.
    pub fn below(&mut self, count: u64) -> u64 {
        self.word() % count
    }

    /// Number from `low` to `high`, both included.
    pub fn within(&mut self, low: u64, high: u64) -> u64 {
        low + self.below(high - low + 1)
    }

    /// Signed number from −`size` to `size`.
    pub fn signed(&mut self, size: i64) -> i64 {
        self.below(2 * size as u64 + 1) as i64 - size
    }

    /// True once in `count` times on average.
    pub fn once_in(&mut self, count: u64) -> bool {
        self.below(count) == 0
    }

    /// One of the choices.
    pub fn pick<T: Copy>(&mut self, choices: &[T]) -> T {
        choices[self.below(choices.len() as u64) as usize]
    }

    /// Number of a range in which small ones, large ones and both ends are
    /// all frequent.
    pub fn spread(&mut self, low: u64, high: u64) -> u64 {
        match self.below(8) {
            0 => low,
            1 => high,
            2 => (low + 1).min(high),
            3 => high.saturating_sub(1).max(low),
            4 => self.within(low, high),
            _ => self.by_size(low, high),
        }
    }

    /// Number of a range with every number of binary digits equally frequent.
    fn by_size(&mut self, low: u64, high: u64) -> u64 {
        let digits = self.within(0, 63 - (high - low + 1).leading_zeros() as u64);
        low + self.below((2 << digits).min(high - low + 1))
    }
}
