//! Random numbers by splitmix64.

pub struct Rng(u64);

impl Rng {
    /// The numbers for one kind of cases of one function: a kind can be run alone and gives the
    /// same cases.
    pub fn new(seed: u64, function: u8, kind: usize) -> Rng {
        let mut rng = Rng(seed);
        let mixed = rng.u64() ^ ((function as u64) << 32 | kind as u64);
        Rng(mixed)
    }

    pub fn u64(&mut self) -> u64 {
        self.0 = self.0.wrapping_add(0x9e37_79b9_7f4a_7c15);
        let z = (self.0 ^ (self.0 >> 30)).wrapping_mul(0xbf58_476d_1ce4_e5b9);
        let z = (z ^ (z >> 27)).wrapping_mul(0x94d0_49bb_1331_11eb);
        z ^ (z >> 31)
    }

    /// A number below n.
    pub fn below(&mut self, n: u64) -> u64 {
        ((self.u64() as u128 * n as u128) >> 64) as u64
    }

    pub fn byte(&mut self) -> u8 {
        self.u64() as u8
    }

    pub fn pick<T: Copy>(&mut self, from: &[T]) -> T {
        from[self.below(from.len() as u64) as usize]
    }

    /// A number of random size: as likely to have few bits as many.
    pub fn number(&mut self) -> u64 {
        self.u64() >> self.below(64)
    }

    pub fn append(&mut self, bytes: &mut Vec<u8>, n: u64) {
        bytes.extend((0..n).map(|_| self.byte()));
    }
}
