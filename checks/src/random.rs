//! Random numbers from a seed.

/// The generator SplitMix64: each number is mixed from a counter, so neighbouring seeds give unlike numbers.
pub struct Random {
    state: u64,
}

impl Random {
    pub fn new(seed: u64) -> Self {
        Random { state: seed }
    }

    /// The generator of one input of a run, whose own seed is given.
    pub fn of_input(seed: u64, number: u64) -> Self {
        let mut random = Random::new(seed);
        Random::new(random.draw() ^ number.wrapping_mul(0xd134_2543_de82_ef95))
    }

    pub fn draw(&mut self) -> u64 {
        self.state = self.state.wrapping_add(0x9e37_79b9_7f4a_7c15);
        let z = (self.state ^ self.state >> 30).wrapping_mul(0xbf58_476d_1ce4_e5b9);
        let z = (z ^ z >> 27).wrapping_mul(0x94d0_49bb_1331_11eb);
        z ^ z >> 31
    }

    /// A number below the bound, which isn't 0.
    pub fn below(&mut self, bound: usize) -> usize {
        (self.draw() % bound as u64) as usize
    }

    /// A number from the first to the last, both of them among it.
    pub fn between(&mut self, first: i64, last: i64) -> i64 {
        first + (self.draw() % (last - first + 1) as u64) as i64
    }

    /// One of the values.
    pub fn one_of<T: Copy>(&mut self, values: &[T]) -> T {
        values[self.below(values.len())]
    }

    /// True once in this number of draws, on the average.
    pub fn once_in(&mut self, count: usize) -> bool {
        self.below(count) == 0
    }

    pub fn octet(&mut self) -> u8 {
        self.draw() as u8
    }

    pub fn octets(&mut self, count: usize) -> Vec<u8> {
        (0..count).map(|_| self.octet()).collect()
    }
}
