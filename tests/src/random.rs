//! A small generator of pseudo-random numbers (splitmix64), so that a seed gives the same cases everywhere.

pub struct Random(u64);

impl Random {
    pub fn new(seed: u64) -> Random {
        Random(seed)
    }

    /// A generator for one case of one group: no case depends on those before it.
    pub fn for_case(seed: u64, group: &str, index: u64) -> Random {
        let mut random = Random(seed);
        for byte in group.bytes() {
            random.0 = random.next() ^ u64::from(byte);
        }
        random.0 = random.next() ^ index;
        Random(random.next())
    }

    pub fn next(&mut self) -> u64 {
        self.0 = self.0.wrapping_add(0x9e37_79b9_7f4a_7c15);
        let mut z = self.0;
        z = (z ^ (z >> 30)).wrapping_mul(0xbf58_476d_1ce4_e5b9);
        z = (z ^ (z >> 27)).wrapping_mul(0x94d0_49bb_1331_11eb);
        z ^ (z >> 31)
    }

    /// A number below `bound`, which is above 0.
    pub fn below(&mut self, bound: usize) -> usize {
        (self.next() % bound as u64) as usize
    }

    /// A number from `low` to `high`, both included.
    pub fn between(&mut self, low: usize, high: usize) -> usize {
        low + self.below(high - low + 1)
    }

    /// True once in `times` on average.
    pub fn one_in(&mut self, times: usize) -> bool {
        self.below(times) == 0
    }

    pub fn byte(&mut self) -> u8 {
        self.next() as u8
    }

    pub fn pick<'a, T>(&mut self, row: &'a [T]) -> &'a T {
        &row[self.below(row.len())]
    }

    pub fn pick_mut<'a, T>(&mut self, row: &'a mut [T]) -> &'a mut T {
        let at = self.below(row.len());
        &mut row[at]
    }

    /// A mask of at most `count` facts below `facts`.
    pub fn facts(&mut self, facts: u32, count: usize) -> u64 {
        let mut mask = 0;
        for _ in 0..self.below(count + 1) {
            mask |= 1 << self.below(facts as usize);
        }
        mask
    }

    /// Any mask of facts below `facts`.
    pub fn state(&mut self, facts: u32) -> u64 {
        self.next() & crate::engine::all_facts(facts)
    }
}
