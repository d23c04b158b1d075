// A small seeded source of numbers (splitmix64), so that a run can be repeated from its seed.

pub struct Rng(u64);

impl Rng {
    pub fn new(seed: u64) -> Rng {
        Rng(seed)
    }

    pub fn word(&mut self) -> u64 {
        self.0 = self.0.wrapping_add(0x9E37_79B9_7F4A_7C15);
        let mut z = self.0;
        z = (z ^ (z >> 30)).wrapping_mul(0xBF58_476D_1CE4_E5B9);
        z = (z ^ (z >> 27)).wrapping_mul(0x94D0_49BB_1331_11EB);
        z ^ (z >> 31)
    }

    // a number below `bound`, which is not 0
    pub fn below(&mut self, bound: usize) -> usize {
        ((self.word() >> 11) % bound as u64) as usize
    }

    // a number from `low` to `high`, both included
    pub fn between(&mut self, low: usize, high: usize) -> usize {
        low + self.below(high - low + 1)
    }

    pub fn chance(&mut self, percent: usize) -> bool {
        self.below(100) < percent
    }

    // a row's cost as a broken table may hold it, often at the ceiling or at "no row"
    #[allow(dead_code)] // the benchmarks draw none
    pub fn cost(&mut self, ceiling: u32) -> u32 {
        let some = self.word() as u32;
        match self.below(8) {
            0 => 0,
            1 => ceiling,
            2 => ceiling + 1,
            3 => ceiling - some % 200_000,
            4 => u32::MAX,
            5 => u32::MAX - some % 3,
            6 => some % 1_000,
            _ => some,
        }
    }

    pub fn pick<T: Copy>(&mut self, from: &[T]) -> T {
        from[self.below(from.len())]
    }
}
