//! A small pseudo-random generator (splitmix64): the same numbers for the same seed, on every machine.

pub struct Generator(u64);

impl Generator {
    /// The numbers of one case; a case does not depend on those before it.
    pub fn new(seed: u64, case: u64) -> Generator {
        let mut start = Generator(seed);
        Generator(start.next().wrapping_add(case))
    }

    fn next(&mut self) -> u64 {
        self.0 = self.0.wrapping_add(0x9E37_79B9_7F4A_7C15);
        let mut mixed = self.0;
        mixed = (mixed ^ (mixed >> 30)).wrapping_mul(0xBF58_476D_1CE4_E5B9);
        mixed = (mixed ^ (mixed >> 27)).wrapping_mul(0x94D0_49BB_1331_11EB);
        mixed ^ (mixed >> 31)
    }

    /// A number from `low` to `high`, both included.
    pub fn between(&mut self, low: usize, high: usize) -> usize {
        low + (self.next() % (high - low + 1) as u64) as usize
    }

    pub fn byte_between(&mut self, low: u8, high: u8) -> u8 {
        self.between(low.into(), high.into()) as u8
    }

    /// A place of something that has `length` of them.
    pub fn place(&mut self, length: usize) -> usize {
        self.between(0, length - 1)
    }

    pub fn one_in(&mut self, times: usize) -> bool {
        self.place(times) == 0
    }

    pub fn pick<T: Copy>(&mut self, from: &[T]) -> T {
        from[self.place(from.len())]
    }
}
