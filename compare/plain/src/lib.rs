//! A plain XCP slave, written from the customer's paper alone.
//! It proves nothing; it is there to compare results and speed with.

#![forbid(unsafe_code)]

mod commands;
mod line;
mod lists;
mod memory;
mod packet;
mod pool;
mod seed;
mod session;
mod slots;
#[cfg(test)]
mod tests;

use line::{Heard, Reader};
use packet::Packet;
use seed::{Generator, WrongKeys};
use session::Session;

/// What a refused event returns: 65,536 times number 8.
pub const NO_SUCH_EVENT: u32 = 65_536 * 8;
/// What a refused slot returns: 65,536 times number 9.
pub const TOO_LITTLE_ROOM: u32 = 65_536 * 9;

/// The whole slave; the memories are not in it, each call lends them.
#[derive(Clone, Debug, PartialEq, Eq)]
pub struct Slave {
    reader: Reader,
    session: Session,
    // The rest runs on across sessions, so it is kept outside `session`.
    generator: Generator,
    wrong_keys: WrongKeys,
    answer: Packet,
    ctr: u8,
    last_was_answer: bool,
}

impl Slave {
    /// A slave as at power-up; `start` is the seed generator's start number.
    pub fn power_up(start: u32) -> Slave {
        Slave {
            reader: Reader::new(),
            session: Session::closed(),
            generator: Generator::new(start),
            wrong_keys: WrongKeys::NONE,
            answer: Packet::NONE,
            ctr: 0,
            last_was_answer: false,
        }
    }

    /// Takes one byte from the wire and returns the paper's number, 0 to 7.
    #[inline(never)]
    pub fn receive_byte(&mut self, cal: &mut [u8], meas: &[u8], byte: u8) -> u32 {
        self.receive_byte_inlined(cal, meas, byte)
    }

    /// The same as `receive_byte`, for a caller that wants it inside its own loop.
    #[inline(always)]
    pub fn receive_byte_inlined(&mut self, cal: &mut [u8], meas: &[u8], byte: u8) -> u32 {
        match self.reader.take(byte) {
            Heard::Nothing => 0,
            Heard::BadLength => 3,
            Heard::BadEscape => 4,
            Heard::BadSum => 5,
            Heard::Cut => 7,
            Heard::Message => self.judge(cal, meas),
        }
    }

    /// Takes bytes up to and with the first whose number is not 0, or all: that number, and how many it took.
    #[inline(never)]
    pub fn receive(&mut self, cal: &mut [u8], meas: &[u8], bytes: &[u8]) -> (u32, usize) {
        self.receive_inlined(cal, meas, bytes)
    }

    /// The same as `receive`, for a caller that wants its loop inside its own.
    #[inline(always)]
    pub fn receive_inlined(&mut self, cal: &mut [u8], meas: &[u8], bytes: &[u8]) -> (u32, usize) {
        for (before, byte) in bytes.iter().enumerate() {
            let number = self.receive_byte_inlined(cal, meas, *byte);
            if number != 0 {
                return (number, before + 1);
            }
        }
        (0, bytes.len())
    }

    /// Judges a message whose checksum was right: 6, then 2, then taken.
    fn judge(&mut self, cal: &mut [u8], meas: &[u8]) -> u32 {
        let packet = self.reader.packet();
        if self.answer.waits() {
            6
        } else if !self.session.open && !commands::is_good_connect(packet) {
            2
        } else {
            commands::answer(
                &mut self.session,
                &mut self.generator,
                &mut self.wrong_keys,
                packet,
                cal,
                meas,
                &mut self.answer,
            );
            1
        }
    }

    /// Samples the running lists of this event: 256 times sampled plus missed.
    pub fn event(&mut self, cal: &[u8], meas: &[u8], event: u32, clock: u16) -> u32 {
        if event >= lists::EVENTS {
            return NO_SUCH_EVENT;
        }
        let (sampled, missed) = self.session.pool.sample(cal, meas, event, clock);
        256 * sampled + missed
    }

    /// Writes at most one frame at the front of `out` and returns its size.
    pub fn slot(&mut self, out: &mut [u8]) -> u32 {
        if out.len() < line::LONGEST_FRAME {
            return TOO_LITTLE_ROOM;
        }
        let ctr = self.ctr;
        let size = match self.next_to_send() {
            None => return 0,
            Some(packet) => {
                let size = line::write_frame(out, ctr, packet.bytes());
                packet.clear();
                size
            }
        };
        self.ctr = ctr.wrapping_add(1);
        size as u32
    }
}
