//! The wire: SYNC, then LEN, CTR, packet and checksum with SYNC and ESC escaped.

pub const SYNC: u8 = 0x9A;
pub const ESC: u8 = 0x9B;
/// What follows ESC for each of the two bytes that are never sent bare.
const FOR_ESC: u8 = 0x00;
const FOR_SYNC: u8 = 0x01;

pub const MAX_PACKET: usize = 64;
const HEADER: usize = 2;
const MAX_MESSAGE: usize = HEADER + MAX_PACKET + 1;
/// One SYNC, and every byte after it doubled.
pub const LONGEST_FRAME: usize = 1 + 2 * MAX_MESSAGE;

/// What one byte of the wire brought.
#[derive(Clone, Copy, Debug, PartialEq, Eq)]
pub enum Heard {
    Nothing,
    Message,
    BadLength,
    BadEscape,
    BadSum,
    Cut,
}

#[derive(Clone, Copy, Debug, PartialEq, Eq)]
enum Place {
    Outside,
    /// `count` unescaped bytes are in the buffer; `escaped`: an ESC came last.
    Inside {
        count: usize,
        escaped: bool,
    },
}

#[derive(Clone, Debug, PartialEq, Eq)]
pub struct Reader {
    place: Place,
    message: [u8; MAX_MESSAGE],
}

impl Reader {
    pub fn new() -> Reader {
        Reader {
            place: Place::Outside,
            message: [0; MAX_MESSAGE],
        }
    }

    #[inline(always)]
    pub fn take(&mut self, byte: u8) -> Heard {
        // SYNC is looked at first: it begins a message wherever it comes, even after ESC.
        if byte == SYNC {
            return self.begin();
        }
        let (count, escaped) = match self.place {
            Place::Outside => return Heard::Nothing,
            Place::Inside { count, escaped } => (count, escaped),
        };
        if !escaped {
            if byte == ESC {
                self.place = Place::Inside {
                    count,
                    escaped: true,
                };
                return Heard::Nothing;
            }
            return self.add(count, byte);
        }
        match byte {
            FOR_ESC => self.add(count, ESC),
            FOR_SYNC => self.add(count, SYNC),
            _ => {
                self.place = Place::Outside;
                Heard::BadEscape
            }
        }
    }

    #[inline(always)]
    fn begin(&mut self) -> Heard {
        let untouched = Place::Inside {
            count: 0,
            escaped: false,
        };
        let cut = self.place != Place::Outside && self.place != untouched;
        self.place = untouched;
        if cut {
            Heard::Cut
        } else {
            Heard::Nothing
        }
    }

    /// Adds one unescaped byte of the message.
    #[inline(always)]
    fn add(&mut self, count: usize, value: u8) -> Heard {
        if count == 0 && (value == 0 || value as usize > MAX_PACKET) {
            self.place = Place::Outside;
            return Heard::BadLength;
        }
        self.message[count] = value;
        if count < HEADER + self.message[0] as usize {
            self.place = Place::Inside {
                count: count + 1,
                escaped: false,
            };
            return Heard::Nothing;
        }
        self.place = Place::Outside;
        if sum(&self.message[..count]) == value {
            Heard::Message
        } else {
            Heard::BadSum
        }
    }

    /// The packet of the message that `take` has just called whole.
    pub fn packet(&self) -> &[u8] {
        &self.message[HEADER..HEADER + self.message[0] as usize]
    }
}

/// The checksum is taken over the unescaped bytes, without SYNC.
fn sum(bytes: &[u8]) -> u8 {
    bytes.iter().fold(0, |sum, byte| sum.wrapping_add(*byte))
}

/// Writes the packet's frame at the front of `out` and returns the frame's size.
pub fn write_frame(out: &mut [u8], ctr: u8, packet: &[u8]) -> usize {
    let len = packet.len() as u8;
    let check = sum(packet).wrapping_add(len).wrapping_add(ctr);
    out[0] = SYNC;
    let mut size = 1;
    size = put(out, size, len);
    size = put(out, size, ctr);
    for byte in packet {
        size = put(out, size, *byte);
    }
    put(out, size, check)
}

fn put(out: &mut [u8], at: usize, byte: u8) -> usize {
    let code = match byte {
        SYNC => FOR_SYNC,
        ESC => FOR_ESC,
        _ => {
            out[at] = byte;
            return at + 1;
        }
    };
    out[at] = ESC;
    out[at + 1] = code;
    at + 2
}
