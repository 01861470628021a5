//! A small generator of pseudo-random numbers (splitmix64), so that no outside crate is needed.

/// A stream of numbers that a seed fixes.
pub struct Random {
    state: u64,
}

impl Random {
    pub fn new(seed: u64) -> Random {
        Random { state: seed }
    }

    /// The next 64 bits.
    pub fn word(&mut self) -> u64 {
        self.state = self.state.wrapping_add(0x9e37_79b9_7f4a_7c15);
        let mut mixed = self.state;
        mixed = (mixed ^ mixed >> 30).wrapping_mul(0xbf58_476d_1ce4_e5b9);
        mixed = (mixed ^ mixed >> 27).wrapping_mul(0x94d0_49bb_1331_11eb);
        mixed ^ mixed >> 31
    }

    /// A number below `end`, which is not 0. The slight bias of the remainder does not matter here.
    pub fn below(&mut self, end: usize) -> usize {
        (self.word() % end as u64) as usize
    }

    /// A number from `low` to `high`, both included.
    pub fn between(&mut self, low: usize, high: usize) -> usize {
        low + self.below(high - low + 1)
    }

    /// True in so many of a hundred cases.
    pub fn percent(&mut self, chance: usize) -> bool {
        self.below(100) < chance
    }

    pub fn pick<T: Copy>(&mut self, choices: &[T]) -> T {
        choices[self.below(choices.len())]
    }

    /// A 16-bit number to put in the place of an old one: a limit, a neighbour, one changed bit, or any.
    pub fn telling_number(&mut self, old: u16) -> u16 {
        const EDGES: [u16; 22] =
            [0, 1, 2, 3, 4, 5, 8, 9, 15, 16, 17, 63, 64, 65, 255, 256, 257, 1023, 1024, 1025, 65534, 65535];
        match self.below(8) {
            0 | 1 => self.pick(&EDGES),
            2 => old.wrapping_add(1),
            3 => old.wrapping_sub(1),
            4 => old ^ 1 << self.below(16),
            5 => self.below(8) as u16,
            6 => 65535,
            _ => self.word() as u16,
        }
    }

    /// A byte to put in the place of an old one.
    pub fn telling_byte(&mut self, old: u8) -> u8 {
        const EDGES: [u8; 14] = [0, 1, 2, 3, 4, 5, 7, 8, 9, 16, 127, 128, 254, 255];
        match self.below(5) {
            0 | 1 => self.pick(&EDGES),
            2 => old.wrapping_add(1),
            3 => old ^ 1 << self.below(8),
            _ => self.word() as u8,
        }
    }
}
