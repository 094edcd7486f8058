//! A small deterministic source of numbers (xorshift64*).

pub struct Random(u64);

impl Random {
    /// A source of its own for each place of each seed.
    pub fn at(seed: u64, place: u64) -> Random {
        let mut mixed = seed.wrapping_mul(0x9e37_79b9_7f4a_7c15) ^ place.wrapping_mul(0xbf58_476d_1ce4_e5b9);
        mixed ^= mixed >> 31;
        let mut random = Random(mixed.wrapping_mul(0x94d0_49bb_1331_11eb) | 1);
        random.next();
        random
    }

    pub fn next(&mut self) -> u64 {
        self.0 ^= self.0 >> 12;
        self.0 ^= self.0 << 25;
        self.0 ^= self.0 >> 27;
        self.0.wrapping_mul(0x2545_f491_4f6c_dd1d)
    }

    pub fn word(&mut self) -> u32 {
        (self.next() >> 32) as u32
    }

    pub fn below(&mut self, end: u64) -> u64 {
        (self.next() >> 11) % end
    }

    /// Both ends included.
    pub fn between(&mut self, first: u32, last: u32) -> u32 {
        first + self.below((last - first) as u64 + 1) as u32
    }

    pub fn one_of<T: Copy>(&mut self, choices: &[T]) -> T {
        choices[self.below(choices.len() as u64) as usize]
    }

    /// True once in so many times.
    pub fn once_in(&mut self, times: u64) -> bool {
        self.below(times) == 0
    }

    /// A word near an edge, or small, or any.
    pub fn edge(&mut self) -> u32 {
        match self.below(6) {
            0 => self.between(0, 4),
            1 => u32::MAX - self.between(0, 4),
            2 => (1u32 << self.between(0, 31)).wrapping_add(self.between(0, 4)).wrapping_sub(2),
            3 => self.between(0, 4096),
            _ => self.word() >> self.between(0, 31),
        }
    }
}
