//! A deterministic source of numbers: SplitMix64 (Steele, Lea, Flood 2014).

pub struct Random {
    state: u64,
}

impl Random {
    /// A source of its own for each name.
    pub fn named(name: &str) -> Self {
        // FNV-1a, so that each file stays as it is when another one changes.
        let add = |hash: u64, byte: u8| (hash ^ u64::from(byte)).wrapping_mul(0x100_0000_01b3);
        Self { state: name.bytes().fold(0xcbf2_9ce4_8422_2325, add) }
    }

    /// A source of its own, drawn from this one.
    pub fn fork(&mut self) -> Self {
        Self { state: self.bits() }
    }

    pub fn bits(&mut self) -> u64 {
        self.state = self.state.wrapping_add(0x9e37_79b9_7f4a_7c15);
        let mut z = self.state;
        z = (z ^ (z >> 30)).wrapping_mul(0xbf58_476d_1ce4_e5b9);
        z = (z ^ (z >> 27)).wrapping_mul(0x94d0_49bb_1331_11eb);
        z ^ (z >> 31)
    }

    /// A number below `limit`.
    pub fn below(&mut self, limit: usize) -> usize {
        (self.bits() % limit as u64) as usize
    }

    /// True once in `times` draws, on average.
    pub fn once_in(&mut self, times: usize) -> bool {
        self.below(times) == 0
    }

    pub fn pick<T: Copy>(&mut self, choices: &[T]) -> T {
        choices[self.below(choices.len())]
    }

    /// A number from 0 up to, but without, 1, with all 53 bits drawn.
    pub fn unit(&mut self) -> f64 {
        (self.bits() >> 11) as f64 / (1_u64 << 53) as f64
    }

    /// A number between −range and range.
    pub fn within(&mut self, range: f64) -> f64 {
        range * (2.0 * self.unit() - 1.0)
    }
}
