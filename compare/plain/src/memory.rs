//! The two lent memories and the transfer address.

/// At most this many bytes at the front of each memory can be addressed.
pub const ADDRESSABLE: usize = 4_096;

#[derive(Clone, Copy, Debug, PartialEq, Eq)]
pub enum Extension {
    Calibration,
    Measured,
}

impl Extension {
    pub fn from_byte(byte: u8) -> Option<Extension> {
        match byte {
            0 => Some(Extension::Calibration),
            1 => Some(Extension::Measured),
            _ => None,
        }
    }

    /// The memory that this extension means.
    pub fn of<'a>(self, cal: &'a [u8], meas: &'a [u8]) -> &'a [u8] {
        match self {
            Extension::Calibration => cal,
            Extension::Measured => meas,
        }
    }
}

#[derive(Clone, Copy, Debug, PartialEq, Eq)]
pub enum Mta {
    Unset,
    At(Extension, u32),
}

/// Where the block begins, if it is inside; reckoned in 64 bits so that nothing wraps.
fn start_of_block(len: usize, address: u32, size: u32) -> Option<usize> {
    let end = u64::from(address) + u64::from(size);
    if end <= len.min(ADDRESSABLE) as u64 {
        Some(address as usize)
    } else {
        None
    }
}

pub fn block(memory: &[u8], address: u32, size: u32) -> Option<&[u8]> {
    let start = start_of_block(memory.len(), address, size)?;
    Some(&memory[start..start + size as usize])
}

pub fn block_mut(memory: &mut [u8], address: u32, size: u32) -> Option<&mut [u8]> {
    let start = start_of_block(memory.len(), address, size)?;
    Some(&mut memory[start..start + size as usize])
}

/// One byte for a sample; 0 where the memory no longer reaches.
pub fn byte_or_zero(memory: &[u8], address: u64) -> u8 {
    if address < memory.len().min(ADDRESSABLE) as u64 {
        memory[address as usize]
    } else {
        0
    }
}
