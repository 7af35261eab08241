//! Numbers drawn by splitmix64.

pub struct Random(u64);

impl Random {
    /// The draws of an index under a seed.
    pub fn new(seed: u64, index: u64) -> Random {
        let mut of_seed = Random(seed);
        let start = of_seed.word();
        let mut of_index = Random(start ^ index.wrapping_mul(0xd6e8_feb8_6659_fd93));
        Random(of_index.word())
    }

    pub fn word(&mut self) -> u64 {
        self.0 = self.0.wrapping_add(0x9e37_79b9_7f4a_7c15);
        let mut word = self.0;
        word = (word ^ (word >> 30)).wrapping_mul(0xbf58_476d_1ce4_e5b9);
        word = (word ^ (word >> 27)).wrapping_mul(0x94d0_49bb_1331_11eb);
        word ^ (word >> 31)
    }

    /// A number below the bound, which is above 0.
    pub fn below(&mut self, bound: u64) -> u64 {
        self.word() % bound
    }

    pub fn between(&mut self, least: i64, most: i64) -> i64 {
        least + self.below((most - least + 1) as u64) as i64
    }

    pub fn one_in(&mut self, chances: u64) -> bool {
        self.below(chances) == 0
    }

    pub fn pick<T: Copy>(&mut self, from: &[T]) -> T {
        from[self.below(from.len() as u64) as usize]
    }

    /// A place in a list of this length, which is above 0.
    pub fn place(&mut self, length: usize) -> usize {
        self.below(length as u64) as usize
    }
}
