//! A small seeded generator (SplitMix64): the same seed gives the same run everywhere.

pub struct Random {
    state: u64,
}

impl Random {
    /// The generator of one round of a theme.
    pub fn new(seed: u64, theme: &str, round: u64) -> Random {
        let mut random = Random { state: seed };
        for &byte in theme.as_bytes() {
            random.state = random.draw() ^ u64::from(byte);
        }
        random.state = random.draw() ^ round;
        random
    }

    pub fn draw(&mut self) -> u64 {
        self.state = self.state.wrapping_add(0x9E37_79B9_7F4A_7C15);
        let mut mixed = self.state;
        mixed = (mixed ^ (mixed >> 30)).wrapping_mul(0xBF58_476D_1CE4_E5B9);
        mixed = (mixed ^ (mixed >> 27)).wrapping_mul(0x94D0_49BB_1331_11EB);
        mixed ^ (mixed >> 31)
    }

    /// A number below a bound, which is not 0.
    pub fn below(&mut self, bound: usize) -> usize {
        (self.draw() % bound as u64) as usize
    }

    /// A number from the least to the most, both included.
    pub fn within(&mut self, least: usize, most: usize) -> usize {
        least + self.below(most - least + 1)
    }

    /// Whether something happens that happens in so many of a hundred cases.
    pub fn chance(&mut self, percent: usize) -> bool {
        self.below(100) < percent
    }

    pub fn pick<T: Copy>(&mut self, from: &[T]) -> T {
        from[self.below(from.len())]
    }

    pub fn byte(&mut self) -> u8 {
        self.draw() as u8
    }

    /// A byte that is not 0, to change another with.
    pub fn change(&mut self) -> u8 {
        self.within(1, 255) as u8
    }

    pub fn word(&mut self) -> u32 {
        self.draw() as u32
    }

    pub fn bytes(&mut self, count: usize) -> Vec<u8> {
        (0..count).map(|_| self.byte()).collect()
    }

    /// From the least to the most bytes.
    pub fn some_bytes(&mut self, least: usize, most: usize) -> Vec<u8> {
        let count = self.within(least, most);
        self.bytes(count)
    }

    pub fn shuffle<T>(&mut self, list: &mut [T]) {
        for last in (1..list.len()).rev() {
            list.swap(last, self.below(last + 1));
        }
    }
}
