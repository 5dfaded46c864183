//! A small random generator (splitmix64); the same seed gives the same numbers everywhere.

pub struct Rng(u64);

impl Rng {
    pub fn new(seed: u64) -> Rng {
        Rng(seed)
    }

    /// The generator of one case under a seed.
    pub fn of_case(seed: u64, number: u64) -> Rng {
        let mut rng = Rng(seed ^ number.wrapping_mul(0xd1b5_4a32_d192_ed03));
        rng.next();
        rng.next();
        rng
    }

    pub fn next(&mut self) -> u64 {
        self.0 = self.0.wrapping_add(0x9e37_79b9_7f4a_7c15);
        let mut x = self.0;
        x = (x ^ (x >> 30)).wrapping_mul(0xbf58_476d_1ce4_e5b9);
        x = (x ^ (x >> 27)).wrapping_mul(0x94d0_49bb_1331_11eb);
        x ^ (x >> 31)
    }

    /// From low to high, both possible.
    pub fn range(&mut self, low: i64, high: i64) -> i64 {
        assert!(low <= high);
        // The span may not fit, though both ends do.
        low.wrapping_add(self.up_to(high.wrapping_sub(low) as u64) as i64)
    }

    /// From 0 to high, both possible.
    pub fn up_to(&mut self, high: u64) -> u64 {
        (self.next() as u128 * (high as u128 + 1) >> 64) as u64
    }

    /// True in `percent` of a hundred.
    pub fn chance(&mut self, percent: i64) -> bool {
        self.range(0, 99) < percent
    }
}

/// One of a list. The list comes first, so that it may itself be made of random numbers.
pub fn one_of<T: Copy>(list: &[T], rng: &mut Rng) -> T {
    list[rng.range(0, list.len() as i64 - 1) as usize]
}
