//! The inputs of a million bytes: a clean line with short packets and with long ones, and a dirty one.

use crate::master::{Load, Master, ESC, SYNC};
use crate::subject::Called;

pub const BYTES: usize = 1_000_000;

/// Numbers by chance, the same at every run.
struct Dice(u32);

impl Dice {
    fn below(&mut self, limit: u32) -> u32 {
        self.0 = self.0.wrapping_mul(1_664_525).wrapping_add(1_013_904_223);
        ((u64::from(self.0) * u64::from(limit)) >> 32) as u32
    }

    fn byte(&mut self) -> u8 {
        self.below(256) as u8
    }
}

/// A command that is done in a session with the locks open and four lists.
fn command(dice: &mut Dice) -> Vec<u8> {
    let (place, byte) = (dice.byte() & 0x7F, dice.byte());
    match dice.below(8) {
        0 => vec![0xFD],
        1 => vec![0xFC],
        2 => vec![0xF6, 0, 0, 0, place, 1, 0, 0],
        3 => vec![0xF5, 1 + byte % 7],
        4 => vec![0xF4, 1 + byte % 7, 0, byte & 1, place, 2, 0, 0],
        5 => vec![0xE2, 0, byte & 3, 0, byte & 1, place & 3],
        6 => vec![0xF8, 0, 1],
        _ => vec![0xF0, 6, byte, SYNC, place, ESC, dice.byte(), dice.byte()],
    }
}

/// The same with as many bytes of data as a packet holds.
fn long_command(dice: &mut Dice) -> Vec<u8> {
    let place = dice.byte() & 0x7F;
    let (mut packet, count) = match dice.below(4) {
        0 => return vec![0xF5, 63],
        1 => return vec![0xF6, 0, 0, 0, place, 1, 0, 0],
        2 => (vec![0xF0, 62], 62),
        _ => (vec![0xED, 56, 0, 0, place, 2, 0, 0], 56),
    };
    packet.extend((0..count).map(|_| dice.byte()));
    packet
}

/// A master ready to download and to point: it has a session, the locks, lists and an address.
fn ready() -> Master<Called> {
    let mut master = Master::new();
    master.open();
    master.allocate(4, 2, 16);
    master.ask(&[0xF6, 0, 0, 0, 0, 1, 0, 0]);
    master
}

/// Commands one after another, each answered before the next, until there are so many bytes.
fn clean_of(command: fn(&mut Dice) -> Vec<u8>, seed: u32, bytes: usize) -> Load {
    let (mut master, mut dice) = (ready(), Dice(seed));
    while master.load.bytes.len() < bytes {
        master.ask(&command(&mut dice));
    }
    master.load
}

pub fn clean() -> Load {
    clean_of(command, 1, BYTES)
}

/// So many bytes for one of many guns, or for a log: other ones for each seed.
pub fn clean_wire(seed: u32, bytes: usize) -> Load {
    clean_of(command, seed, bytes)
}

pub fn clean_and_long() -> Load {
    clean_of(long_command, 1, BYTES)
}

/// Damage of every kind among the commands, and noise between them.
pub fn dirty() -> Load {
    let (mut master, mut dice) = (ready(), Dice(2));
    while master.load.bytes.len() < BYTES {
        dirt(&mut master, &mut dice);
        master.slot();
    }
    master.load
}

fn dirt(master: &mut Master<Called>, dice: &mut Dice) {
    let packet = command(dice);
    let mut frame = master.frame(&packet);
    let last = frame.len() - 1;
    let place = 1 + dice.below(last as u32) as usize;
    match dice.below(8) {
        0 => {}
        1 => master.send(&[0xFC]), // its answer waits: 6 at the frame after it
        2 => {
            master.ask(&[0xFE]); // 2 at the frame after it
            master.wire(&frame);
            frame = master.frame(&[0xFF, 0]);
        }
        3 => frame[1] = [0, 0x41, 0x80, 0xFF][place % 4],
        4 => {
            frame.insert(2, 0x55);
            frame.insert(2, ESC);
        }
        5 if frame[last] < 0x90 => frame[last] += 1,
        6 => frame.truncate(place + 1), // 7 at the next SYNC
        _ => frame = (0..place).map(|_| dice.byte()).collect(),
    }
    master.wire(&frame);
}
