//! All that can be seen of one call.

use crate::step::MEMORY;
use crate::wire::hex;

/// More than is ever lent to a slot, so that bytes past the room are seen too.
pub const ROOM: usize = 160;
pub const UNTOUCHED: u8 = 0xEE;

#[derive(Clone, Debug, Default, PartialEq, Eq)]
pub struct Effect {
    pub result: u32,
    /// Of a slice: how many of its bytes were taken.
    pub taken: u32,
    /// The room up to the last byte that the call changed.
    pub wrote: Vec<u8>,
    pub cal: Change,
    pub meas: Change,
    /// A byte beside what was lent has changed, or the state in a call that was refused; or a slice did
    /// other than its bytes one by one.
    pub strayed: bool,
}

/// From the first byte of a memory that a call changed to the last.
#[derive(Clone, Debug, Default, PartialEq, Eq)]
pub struct Change {
    pub at: usize,
    pub bytes: Vec<u8>,
}

/// A memory, and what it held before the call.
pub struct Memory {
    pub now: Vec<u8>,
    before: Vec<u8>,
}

impl Memory {
    pub fn new() -> Memory {
        Memory {
            now: vec![0; MEMORY],
            before: vec![0; MEMORY],
        }
    }

    /// The host's own work, which no call did.
    pub fn put(&mut self, at: u16, bytes: &[u8]) {
        let place = usize::from(at)..usize::from(at) + bytes.len();
        self.now[place.clone()].copy_from_slice(bytes);
        self.before[place].copy_from_slice(bytes);
    }

    /// What the last call changed.
    pub fn change(&mut self) -> Change {
        if self.now == self.before {
            return Change::default();
        }
        let differs = |i: &usize| self.now[*i] != self.before[*i];
        let at = (0..MEMORY).find(differs).unwrap_or(0);
        let last = (0..MEMORY).rfind(differs).unwrap_or(at);
        let bytes = self.now[at..=last].to_vec();
        self.before[at..=last].copy_from_slice(&bytes);
        Change { at, bytes }
    }
}

/// What a call wrote into this room.
pub fn written(room: &[u8; ROOM]) -> Vec<u8> {
    let untouched = room.iter().rev().take_while(|b| **b == UNTOUCHED).count();
    room[..ROOM - untouched].to_vec()
}

impl Effect {
    /// The frame that a slot has sent; it may end in bytes that were there before.
    pub fn frame(&self) -> Vec<u8> {
        let mut frame = self.wrote.clone();
        frame.resize(self.result as usize & 0xFFFF, UNTOUCHED);
        frame
    }

    pub fn words(&self) -> String {
        let mut words = format!(
            "number {}, value {}",
            self.result >> 16,
            self.result & 0xFFFF
        );
        if self.taken > 0 {
            words += &format!(", took {}", self.taken);
        }
        if !self.wrote.is_empty() {
            words += &format!(", wrote {}", hex(&self.wrote));
        }
        for (name, change) in [("calibration", &self.cal), ("measured", &self.meas)] {
            if !change.bytes.is_empty() {
                words += &format!(", {} at {}: {}", name, change.at, hex(&change.bytes));
            }
        }
        if self.strayed {
            words += ", changed what it must not";
        }
        words
    }
}
