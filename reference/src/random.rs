//! A small seeded generator (splitmix64), the same on every machine.

/// Random numbers from a seed.
#[derive(Clone, Debug)]
pub struct Random {
    state: u64,
}

impl Random {
    pub fn new(seed: u64) -> Random {
        Random { state: seed }
    }

    fn next(&mut self) -> u64 {
        self.state = self.state.wrapping_add(0x9e37_79b9_7f4a_7c15);
        let mut mixed = self.state;
        mixed = (mixed ^ (mixed >> 30)).wrapping_mul(0xbf58_476d_1ce4_e5b9);
        mixed = (mixed ^ (mixed >> 27)).wrapping_mul(0x94d0_49bb_1331_11eb);
        mixed ^ (mixed >> 31)
    }

    /// A number from 0 to `count` - 1.
    pub fn below(&mut self, count: usize) -> usize {
        let drawn = (u128::from(self.next()) * count as u128) >> 64;
        drawn as usize
    }

    /// A number from `low` to `high`, both included; `low` ≤ `high`.
    pub fn between(&mut self, low: i64, high: i64) -> i64 {
        let span = (i128::from(high) - i128::from(low) + 1) as u128;
        let drawn = (u128::from(self.next()) * span) >> 64;
        (i128::from(low) + drawn as i128) as i64
    }

    /// Yes in `percent` of a hundred draws.
    pub fn chance(&mut self, percent: usize) -> bool {
        self.below(100) < percent
    }

    /// One of the choices.
    pub fn pick<T: Copy>(&mut self, choices: &[T]) -> T {
        choices[self.below(choices.len())]
    }

    /// A number with any count of digits up to that of `high`, so small ones
    /// come as often as great ones.
    pub fn any_size(&mut self, high: i64) -> i64 {
        let digits = high.max(1).to_string().len();
        let top = 10_i64
            .checked_pow(self.below(digits + 1) as u32)
            .unwrap_or(high);
        self.between(0, top.min(high))
    }
}
