//! A small seeded source of numbers (splitmix64), so that every case can be made again.

/// The source. The same seed gives the same numbers on every machine.
pub struct Random {
    state: u64,
}

impl Random {
    pub fn new(seed: u64) -> Random {
        Random { state: seed }
    }

    /// The source of one case of a run.
    pub fn of_case(seed: u64, case: u64) -> Random {
        let mut mixed = Random::new(seed ^ case.wrapping_mul(0xD134_2543_DE82_EF95));
        Random::new(mixed.word64())
    }

    pub fn word64(&mut self) -> u64 {
        self.state = self.state.wrapping_add(0x9E37_79B9_7F4A_7C15);
        let mut mixed = self.state;
        mixed = (mixed ^ (mixed >> 30)).wrapping_mul(0xBF58_476D_1CE4_E5B9);
        mixed = (mixed ^ (mixed >> 27)).wrapping_mul(0x94D0_49BB_1331_11EB);
        mixed ^ (mixed >> 31)
    }

    pub fn word(&mut self) -> u32 {
        self.word64() as u32
    }

    pub fn byte(&mut self) -> u8 {
        self.word64() as u8
    }

    /// A number under `limit`; 0 if that is 0.
    pub fn under(&mut self, limit: usize) -> usize {
        match limit {
            0 => 0,
            _ => (self.word64() % limit as u64) as usize,
        }
    }

    /// A number from `least` to `most`.
    pub fn from_to(&mut self, least: i64, most: i64) -> i64 {
        least + self.under((most - least + 1) as usize) as i64
    }

    /// True once in `times` on average.
    pub fn once_in(&mut self, times: usize) -> bool {
        self.under(times) == 0
    }

    pub fn pick<T: Copy>(&mut self, choices: &[T]) -> T {
        choices[self.under(choices.len())]
    }

    pub fn shuffle<T>(&mut self, items: &mut [T]) {
        for last in (1..items.len()).rev() {
            items.swap(last, self.under(last + 1));
        }
    }

    /// Any bytes, eight from each number: lent work memory is long.
    pub fn bytes(&mut self, count: usize) -> Vec<u8> {
        let mut bytes = Vec::with_capacity(count + 8);
        while bytes.len() < count {
            bytes.extend_from_slice(&self.word64().to_le_bytes());
        }
        bytes.truncate(count);
        bytes
    }

    /// The bits of any finite float, now and then a zero of either sign.
    pub fn finite(&mut self) -> u32 {
        match self.under(8) {
            0 => 0,
            1 => 0x8000_0000,
            _ => loop {
                let bits = self.word();
                if f32::from_bits(bits).is_finite() {
                    return bits;
                }
            },
        }
    }

    /// A 32-bit number that is likely to stand at some limit.
    pub fn odd_word(&mut self) -> u32 {
        match self.under(4) {
            0 => self.word(),
            1 => self.word().wrapping_shr(self.under(32) as u32 & 31),
            _ => self.pick(&[
                0,
                1,
                2,
                3,
                11,
                12,
                13,
                22,
                23,
                63,
                64,
                65,
                135,
                136,
                137,
                4_095,
                4_096,
                4_097,
                8_191,
                8_192,
                12_288,
                12_289,
                65_535,
                65_536,
                0x7FFF_FFFF,
                0x8000_0000,
                0xFFFF_FFFD,
                0xFFFF_FFFE,
                0xFFFF_FFFF,
            ]),
        }
    }
}
