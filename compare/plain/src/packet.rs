//! A packet to send: an answer, or one ODT of a sample. It is made where it waits, since a copy of
//! one with few bytes would cost as much as of one with all.

use crate::line::MAX_PACKET;

#[derive(Clone, Copy, Debug)]
pub struct Packet {
    /// None waits if this is 0.
    len: usize,
    /// Those from `len` on are left from an earlier packet.
    bytes: [u8; MAX_PACKET],
}

impl Packet {
    pub const NONE: Packet = Packet {
        len: 0,
        bytes: [0; MAX_PACKET],
    };

    pub fn waits(&self) -> bool {
        self.len > 0
    }

    /// Begins a packet with these bytes; what waited is gone.
    pub fn begin(&mut self, bytes: &[u8]) {
        self.clear();
        self.extend(bytes);
    }

    /// Adds bytes at the end.
    pub fn extend(&mut self, bytes: &[u8]) {
        self.more(bytes.len()).copy_from_slice(bytes);
    }

    /// So many more bytes at the end, to be filled; every caller has made sure that they fit.
    pub fn more(&mut self, count: usize) -> &mut [u8] {
        let from = self.len;
        self.len += count;
        &mut self.bytes[from..self.len]
    }

    pub fn clear(&mut self) {
        self.len = 0;
    }

    pub fn bytes(&self) -> &[u8] {
        &self.bytes[..self.len]
    }
}

impl PartialEq for Packet {
    fn eq(&self, other: &Packet) -> bool {
        self.bytes() == other.bytes()
    }
}

impl Eq for Packet {}
