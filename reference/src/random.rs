//! Numbers that look random and depend on the seed alone (splitmix64).

#[derive(Clone, Debug)]
pub struct Random {
    state: u64,
}

impl Random {
    /// The stream of one list: a function of the seed and the list's index.
    pub fn new(seed: u64, index: u64) -> Random {
        let mut random = Random { state: seed };
        let mixed = random.number();
        random.state = mixed ^ index.wrapping_mul(0xD1B5_4A32_D192_ED03);
        random.number();
        random
    }

    pub fn number(&mut self) -> u64 {
        self.state = self.state.wrapping_add(0x9E37_79B9_7F4A_7C15);
        let mut z = self.state;
        z = (z ^ (z >> 30)).wrapping_mul(0xBF58_476D_1CE4_E5B9);
        z = (z ^ (z >> 27)).wrapping_mul(0x94D0_49BB_1331_11EB);
        z ^ (z >> 31)
    }

    /// A number below the limit; 0 where the limit is 0.
    pub fn below(&mut self, limit: u64) -> u64 {
        let value = self.number();
        value.checked_rem(limit).unwrap_or(0)
    }

    /// A number from low to high, both included.
    pub fn between(&mut self, low: u64, high: u64) -> u64 {
        low + self.below(high - low + 1)
    }

    /// True in so many of a hundred cases.
    pub fn chance(&mut self, percent: u64) -> bool {
        self.below(100) < percent
    }

    /// One of the values given.
    pub fn pick<T: Copy>(&mut self, values: &[T]) -> T {
        values[self.below(values.len() as u64) as usize]
    }

    /// One of the values of a list, or none of an empty one.
    pub fn choose<T: Clone>(&mut self, values: &[T]) -> Option<T> {
        let place = self.below(values.len() as u64) as usize;
        values.get(place).cloned()
    }

    /// A value whose bits beyond the width are zero; its own width varies.
    pub fn of_width(&mut self, width: u32) -> u64 {
        let used = self.between(1, u64::from(width)) as u32;
        let wide = if self.chance(50) { width } else { used };
        self.number() >> (64 - wide)
    }
}
