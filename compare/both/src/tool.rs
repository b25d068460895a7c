//! What a master does in several steps.

use crate::packet::{
    alloc_entries, alloc_lists, alloc_odts, key, unlock_packet, with_address, CALIBRATION, LISTS,
};
use crate::rig::Rig;
use crate::wire::{frame, FRAME};

/// Lists for most of what lists do, by the entries of each ODT: four of two ODTs of sixteen entries.
pub const FOUR: [[u8; 2]; 4] = [[16, 16]; 4];

impl Rig {
    /// Asks for a seed; none if the resource is unlocked, it stays shut or there is no session.
    pub fn seed(&mut self, resource: u8) -> Option<u32> {
        match self.ask(&[0xF8, 0, resource])?.as_slice() {
            [0xFF, 4, a, b, c, d] => Some(u32::from_le_bytes([*a, *b, *c, *d])),
            _ => None,
        }
    }

    pub fn unlock(&mut self, resource: u8) {
        if let Some(seed) = self.seed(resource) {
            self.ask(&unlock_packet(key(resource, seed)));
        }
    }

    /// In a session of its own a key with one bit wrong, sent even where no seed was given for it.
    pub fn wrong_key(&mut self, resource: u8) {
        self.connect();
        let seed = self.seed(resource).unwrap_or(0);
        let bit = self.dice.below(32);
        self.ask(&unlock_packet(key(resource, seed) ^ 1 << bit));
    }

    /// Several commands in one slice, which is handed on behind what was taken, after a slot if they are to be answered.
    pub fn burst(&mut self, packets: &[Vec<u8>], answered: bool) {
        let (mut wire, mut ends) = (Vec::new(), Vec::new());
        for packet in packets {
            wire.extend(frame(self.dice.byte(), packet));
            ends.push(wire.len());
        }
        let mut at = 0;
        while at < wire.len() && !self.over() {
            let (number, taken) = self.slice(&wire[at..]);
            at += taken;
            let ended = ends.iter().position(|end| *end == at);
            if let (1, Some(which)) = (number, ended) {
                self.taken(&packets[which]);
            }
            if answered {
                self.slot(FRAME);
            }
        }
    }

    pub fn connect(&mut self) {
        self.ask(&[0xFF, 0]);
    }

    /// A session with both locks open.
    pub fn open(&mut self) {
        self.connect();
        self.unlock(CALIBRATION);
        self.unlock(LISTS);
    }

    /// The same, and with lists.
    pub fn open_with<L: AsRef<[u8]>>(&mut self, lists: &[L]) {
        self.open();
        self.allocate(lists);
    }

    /// Gives all lists back and takes these: of each the entries of its ODTs.
    pub fn allocate<L: AsRef<[u8]>>(&mut self, lists: &[L]) {
        self.free();
        self.alloc_lists(lists.len() as u16);
        let lists = || (0..).zip(lists.iter().map(L::as_ref));
        for (list, odts) in lists().filter(|(_, odts)| !odts.is_empty()) {
            self.alloc_odts(list, odts.len() as u8);
        }
        for (list, odts) in lists() {
            for (odt, entries) in (0..).zip(odts).filter(|(_, entries)| **entries > 0) {
                self.alloc_entries(list, odt, *entries);
            }
        }
    }

    pub fn free(&mut self) {
        self.ask(&[0xD6]);
    }

    pub fn alloc_lists(&mut self, count: u16) {
        self.ask(&alloc_lists(count));
    }

    pub fn alloc_odts(&mut self, list: u16, count: u8) {
        self.ask(&alloc_odts(list, count));
    }

    pub fn alloc_entries(&mut self, list: u16, odt: u8, count: u8) {
        self.ask(&alloc_entries(list, odt, count));
    }

    pub fn set_mta(&mut self, extension: u8, address: u32) {
        self.ask(&with_address([0xF6, 0, 0, extension], address));
    }

    pub fn point(&mut self, list: u8, odt: u8, entry: u8) {
        self.ask(&[0xE2, 0, list, 0, odt, entry]);
    }

    pub fn write_entry(&mut self, size: u8, extension: u8, address: u32) {
        self.ask(&with_address([0xE1, 0xFF, size, extension], address));
    }

    pub fn set_mode(&mut self, list: u8, event: u8) {
        self.ask(&[0xE0, 0x10, list, 0, event, 0, 1, 0]);
    }

    /// Clears a list and writes so many bytes into each ODT, in entries of at most 4.
    pub fn fill(&mut self, list: u8, bytes: &[u8], extension: u8, address: u32) {
        self.ask(&[0xE3, 0, list, 0]);
        for (odt, total) in bytes.iter().enumerate() {
            self.point(list, odt as u8, 0);
            let mut left = *total;
            while left > 0 {
                let size = left.min(4);
                self.write_entry(size, extension, address + u32::from(total - left));
                left -= size;
            }
        }
    }

    /// 0 stops, 1 starts, 2 selects.
    pub fn turn(&mut self, mode: u8, list: u8) {
        self.ask(&[0xDE, mode, list, 0]);
    }

    /// Slots until nothing waits, and the one that shows it.
    pub fn drain(&mut self) {
        while self.slot(FRAME + 7).is_some() {}
    }
}
