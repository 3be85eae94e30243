//! A seeded generator (xorshift64*): the same seed gives the same inputs everywhere.

pub struct Random(u64);

impl Random {
    /// Seeds near one another give sequences that have nothing in common.
    pub fn new(seed: u64) -> Random {
        let mut z = seed.wrapping_add(0x9e37_79b9_7f4a_7c15);
        z = (z ^ (z >> 30)).wrapping_mul(0xbf58_476d_1ce4_e5b9);
        z = (z ^ (z >> 27)).wrapping_mul(0x94d0_49bb_1331_11eb);
        Random((z ^ (z >> 31)) | 1)
    }

    /// The next 64 bits.
    pub fn word(&mut self) -> u64 {
        self.0 ^= self.0 >> 12;
        self.0 ^= self.0 << 25;
        self.0 ^= self.0 >> 27;
        self.0.wrapping_mul(0x2545_f491_4f6c_dd1d)
    }

    /// A number from 0 to `most`, both included.
    pub fn up_to(&mut self, most: u32) -> u32 {
        (((self.word() >> 32) * (u64::from(most) + 1)) >> 32) as u32
    }

    /// A number from `least` to `most`, both included.
    pub fn between(&mut self, least: u32, most: u32) -> u32 {
        least + self.up_to(most - least)
    }

    /// An index below `length`, which is above 0.
    pub fn index(&mut self, length: usize) -> usize {
        self.up_to(length as u32 - 1) as usize
    }

    /// True once in `n` times.
    pub fn once_in(&mut self, n: u32) -> bool {
        self.up_to(n - 1) == 0
    }

    /// One element of a list that is not empty.
    pub fn pick<T: Copy>(&mut self, from: &[T]) -> T {
        from[self.index(from.len())]
    }

    /// A number of any size: small ones are as likely as large ones.
    pub fn any(&mut self) -> u32 {
        let bits = self.up_to(32);
        if bits == 0 {
            0
        } else {
            (self.word() >> (64 - bits)) as u32
        }
    }

    /// A list of bytes of any content.
    pub fn bytes(&mut self, length: usize) -> Vec<u8> {
        (0..length).map(|_| self.word() as u8).collect()
    }
}
