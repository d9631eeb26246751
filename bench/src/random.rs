//! A small generator, so that every run measures the same input.
pub struct Random(u64);

impl Random {
    pub fn new(seed: u64) -> Random {
        Random(0x9E37_79B9_7F4A_7C15 ^ seed)
    }

    fn next(&mut self) -> u64 {
        self.0 ^= self.0 << 13;
        self.0 ^= self.0 >> 7;
        self.0 ^= self.0 << 17;
        self.0
    }

    pub fn below(&mut self, bound: u32) -> u32 {
        ((self.next() >> 11) % u64::from(bound)) as u32
    }

    pub fn shuffled(&mut self, length: u32) -> Vec<u32> {
        let mut all: Vec<u32> = (0..length).collect();
        for i in (1..length).rev() {
            all.swap(i as usize, self.below(i + 1) as usize);
        }
        all
    }
}
