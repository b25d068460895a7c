//! A master that talks to one slave, and keeps what it sent so that others can be given the same.

use crate::subject::{Memories, Subject, ROOM};

pub const SYNC: u8 = 0x9A;
pub const ESC: u8 = 0x9B;
const CALIBRATION: (u8, u32) = (0x01, 0xD05E);
const LISTS: (u8, u32) = (0x04, 0xDA00);

/// Lists by their sizes: in each ODT so many entries of 4 bytes, and in some lists then one of 1 or 3.
#[derive(Clone, Copy)]
pub struct Shape {
    lists: u8,
    odts: u8,
    fours: u8,
    one_more: bool,
}

impl Shape {
    /// Four with ODTs of five and seven bytes.
    pub const FOUR: Shape = Shape {
        lists: 4,
        odts: 2,
        fours: 1,
        one_more: true,
    };
    /// Four with as many bytes as their ODTs hold.
    pub const FULL: Shape = Shape {
        fours: 15,
        ..Shape::FOUR
    };
    /// As a weighing gun wants it: one with all ODTs and all entries.
    pub const LONG: Shape = Shape {
        lists: 1,
        odts: 16,
        fours: 8,
        one_more: false,
    };
    /// As a trough reader wants them: eight with an entry each.
    pub const SHORT: Shape = Shape {
        lists: 8,
        odts: 1,
        fours: 1,
        one_more: false,
    };
}

/// Bytes for the slave, and where slots come: at each place one.
#[derive(Default)]
pub struct Load {
    pub bytes: Vec<u8>,
    pub slots: Vec<usize>,
    /// Of these slots the ones in which an answer waits, each right behind the last byte before it whose number is not 0.
    pub answers: Vec<usize>,
}

pub struct Master<S: Subject> {
    pub slave: S,
    pub memories: Memories,
    pub load: Load,
    ctr: u8,
    /// The place behind the last byte whose number was not 0.
    heard: usize,
}

impl<S: Subject> Master<S> {
    pub fn new() -> Master<S> {
        Master {
            slave: S::power_up(1),
            memories: Memories::new(),
            load: Load::default(),
            ctr: 0,
            heard: 0,
        }
    }

    /// The frame of a packet, with the next CTR.
    pub fn frame(&mut self, packet: &[u8]) -> Vec<u8> {
        let mut message = vec![packet.len() as u8, self.ctr];
        self.ctr = self.ctr.wrapping_add(1);
        message.extend_from_slice(packet);
        message.push(message.iter().fold(0, |sum, byte| sum.wrapping_add(*byte)));
        let mut frame = vec![SYNC];
        for byte in message {
            match byte {
                SYNC => frame.extend_from_slice(&[ESC, 1]),
                ESC => frame.extend_from_slice(&[ESC, 0]),
                other => frame.push(other),
            }
        }
        frame
    }

    /// Sends bytes as they are.
    pub fn wire(&mut self, bytes: &[u8]) {
        for byte in bytes {
            let result = self.slave.byte(&mut self.memories, *byte);
            self.load.bytes.push(*byte);
            if S::number(result) != 0 {
                self.heard = self.load.bytes.len();
            }
        }
    }

    /// One slot; the packet that it sent, or nothing.
    pub fn slot(&mut self) -> Vec<u8> {
        let mut out = [0; ROOM];
        let size = self.slave.slot(&mut out) as usize & 0xFFFF;
        self.load.slots.push(self.load.bytes.len());
        if size > 0 {
            self.load.answers.push(self.heard);
        }
        let mut message = Vec::new();
        let mut rest = out[..size].iter().skip(1);
        while let Some(byte) = rest.next() {
            let pair = *byte == ESC;
            message.push(if pair {
                ESC - rest.next().unwrap_or(&0)
            } else {
                *byte
            });
        }
        message[2.min(message.len())..message.len().saturating_sub(1)].to_vec()
    }

    pub fn send(&mut self, packet: &[u8]) {
        let frame = self.frame(packet);
        self.wire(&frame);
    }

    pub fn ask(&mut self, packet: &[u8]) -> Vec<u8> {
        self.send(packet);
        self.slot()
    }

    /// A session with both locks open.
    pub fn open(&mut self) {
        self.ask(&[0xFF, 0]);
        for (resource, addend) in [CALIBRATION, LISTS] {
            let answer = self.ask(&[0xF8, 0, resource]);
            let seed = u32::from_le_bytes([answer[2], answer[3], answer[4], answer[5]]);
            let key = seed.wrapping_add(addend).rotate_left(8).to_le_bytes();
            self.ask(&[0xF7, 4, key[0], key[1], key[2], key[3]]);
        }
    }

    /// Gives all lists back and takes so many, with so many ODTs each, and these with so many entries.
    pub fn allocate(&mut self, lists: u8, odts: u8, entries: u8) {
        self.ask(&[0xD6]);
        self.ask(&[0xD5, 0, lists, 0]);
        for list in 0..lists {
            self.ask(&[0xD4, 0, list, 0, odts]);
        }
        for list in 0..lists {
            for odt in 0..odts {
                self.ask(&[0xD3, 0, list, 0, odt, entries]);
            }
        }
    }

    /// Lists that all run on event 0.
    pub fn start_lists(&mut self, shape: Shape) {
        let entries = shape.fours + u8::from(shape.one_more);
        self.allocate(shape.lists, shape.odts, entries);
        for list in 0..shape.lists {
            for odt in 0..shape.odts {
                self.ask(&[0xE2, 0, list, 0, odt, 0]);
                for entry in 0..entries {
                    let size = if entry < shape.fours { 4 } else { 1 + 2 * odt };
                    self.ask(&[0xE1, 0xFF, size, 1, 0x10 * list, 0, 0, 0]);
                }
            }
            self.ask(&[0xE0, 0x10, list, 0, 0, 0, 1, 0]);
            self.ask(&[0xDE, 1, list, 0]);
        }
    }
}
