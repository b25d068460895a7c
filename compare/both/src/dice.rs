//! Numbers by chance, the same for the same seed.

pub struct Dice(u64);

impl Dice {
    pub fn new(seed: u64) -> Dice {
        Dice(seed)
    }

    /// The next number of splitmix64.
    fn next(&mut self) -> u64 {
        self.0 = self.0.wrapping_add(0x9E37_79B9_7F4A_7C15);
        let mut x = self.0;
        x = (x ^ (x >> 30)).wrapping_mul(0xBF58_476D_1CE4_E5B9);
        x = (x ^ (x >> 27)).wrapping_mul(0x94D0_49BB_1331_11EB);
        x ^ (x >> 31)
    }

    pub fn below(&mut self, limit: usize) -> usize {
        ((self.next() >> 33) as usize) % limit
    }

    /// True once in so many.
    pub fn once_in(&mut self, times: usize) -> bool {
        self.below(times) == 0
    }

    pub fn one_of<T: Copy>(&mut self, some: &[T]) -> T {
        some[self.below(some.len())]
    }

    pub fn any_byte(&mut self) -> u8 {
        self.next() as u8
    }

    pub fn number(&mut self) -> u32 {
        self.next() as u32
    }

    /// Mostly a byte at the edge of something: small, an escape, or large.
    pub fn byte(&mut self) -> u8 {
        match self.below(5) {
            0 => self.any_byte(),
            1 => self.one_of(&[0x9A, 0x9B]),
            2 => self.one_of(&[0x10, 0x7F, 0x80, 0xFE, 0xFF]),
            _ => self.below(10) as u8,
        }
    }
}
