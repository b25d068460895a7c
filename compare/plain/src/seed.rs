//! Seed and key: a guard against mistakes, not thieves.

/// Marsaglia's 32-bit xorshift.
#[derive(Clone, Copy, Debug, PartialEq, Eq)]
pub struct Generator(u32);

impl Generator {
    /// Takes the place of a start of 0, from which the generator would never leave 0.
    pub const DEFAULT: u32 = 0x2545_F491;

    pub fn new(start: u32) -> Generator {
        Generator(if start == 0 { Self::DEFAULT } else { start })
    }

    /// Steps on; each seed given is the next state.
    pub fn step(&mut self) -> u32 {
        self.0 ^= self.0 << 13;
        self.0 ^= self.0 >> 17;
        self.0 ^= self.0 << 5;
        self.0
    }
}

/// How many keys were wrong since power-up, whichever resource they were for.
#[derive(Clone, Copy, Debug, PartialEq, Eq)]
pub struct WrongKeys(u8);

impl WrongKeys {
    pub const NONE: WrongKeys = WrongKeys(0);
    /// With so many it stays shut until the next power-up.
    const MOST: u8 = 3;

    /// One more; beyond `MOST` there is none, since a key needs a seed.
    pub fn count(&mut self) {
        self.0 += 1;
    }

    /// Whether no seed is given any more.
    pub fn shut(self) -> bool {
        self.0 >= Self::MOST
    }
}

#[derive(Clone, Copy, Debug, PartialEq, Eq)]
pub enum Resource {
    Calibration,
    Lists,
}

impl Resource {
    pub fn from_mask(mask: u8) -> Option<Resource> {
        match mask {
            0x01 => Some(Resource::Calibration),
            0x04 => Some(Resource::Lists),
            _ => None,
        }
    }

    /// The key that opens this resource after this seed.
    pub fn key(self, seed: u32) -> u32 {
        let offset = match self {
            Resource::Calibration => 0x0000_D05E,
            Resource::Lists => 0x0000_DA00,
        };
        seed.wrapping_add(offset).rotate_left(8)
    }
}
