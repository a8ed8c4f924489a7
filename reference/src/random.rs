//! A small fixed source of numbers (splitmix64), so that a seed gives the same cases on every machine.

pub struct Random(u64);

impl Random {
    /// A source of its own for each case: a case does not change when more cases are made after it.
    pub fn new(seed: u64, stream: u64, index: u64) -> Random {
        let mut source = Random(seed ^ stream.wrapping_mul(0xD6E8_FEB8_6659_FD93));
        let first = source.word();
        Random(first ^ index.wrapping_mul(0xA076_1D64_78BD_642F))
    }

    pub fn word(&mut self) -> u64 {
        self.0 = self.0.wrapping_add(0x9E37_79B9_7F4A_7C15);
        let mut z = self.0;
        z = (z ^ (z >> 30)).wrapping_mul(0xBF58_476D_1CE4_E5B9);
        z = (z ^ (z >> 27)).wrapping_mul(0x94D0_49BB_1331_11EB);
        z ^ (z >> 31)
    }

    /// A number below `bound`, which is not 0. The division is made on 64 bits whatever the machine.
    pub fn below(&mut self, bound: usize) -> usize {
        ((self.word() >> 11) % bound as u64) as usize
    }

    /// A number from `low` to `high`, both counted.
    pub fn between(&mut self, low: usize, high: usize) -> usize {
        low + self.below(high - low + 1)
    }

    pub fn chance(&mut self, percent: usize) -> bool {
        self.below(100) < percent
    }

    pub fn byte(&mut self) -> u8 {
        self.below(256) as u8
    }

    pub fn pick<T: Copy>(&mut self, list: &[T]) -> T {
        list[self.below(list.len())]
    }
}
