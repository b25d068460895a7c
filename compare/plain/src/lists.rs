//! What the pool consists of: lists, ODTs and entries.

use crate::memory::{byte_or_zero, Extension};
use crate::packet::Packet;
use std::ops::Range;

pub const EVENTS: u32 = 2;

#[derive(Clone, Copy, Debug, PartialEq, Eq)]
pub struct Entry {
    pub size: u8,
    pub extension: Extension,
    pub address: u32,
}

impl Entry {
    pub const EMPTY: Entry = Entry {
        size: 0,
        extension: Extension::Calibration,
        address: 0,
    };
}

#[derive(Clone, Copy, Debug, PartialEq, Eq)]
pub enum Pointer {
    Unset,
    At {
        list: usize,
        odt: usize,
        entry: usize,
    },
}

/// An ODT knows where its entries lie in the pool.
#[derive(Clone, Copy, Debug)]
pub struct Odt {
    first: usize,
    count: usize,
    /// Of the last sample; whether it waits its list says.
    pub packet: Packet,
}

impl Odt {
    pub const NEW: Odt = Odt {
        first: 0,
        count: 0,
        packet: Packet::NONE,
    };

    pub fn give(&mut self, entries: Range<usize>) {
        self.first = entries.start;
        self.count = entries.len();
    }

    pub fn entries(&self) -> Range<usize> {
        self.first..self.first + self.count
    }

    /// Fills the packet: these bytes, then those of its entries in the pool as they are now.
    pub fn capture(&mut self, front: &[u8], pool: &[Entry], cal: &[u8], meas: &[u8]) {
        self.packet.begin(front);
        for entry in &pool[self.entries()] {
            let memory = entry.extension.of(cal, meas);
            let bytes = self.packet.more(usize::from(entry.size));
            for (byte, address) in bytes.iter_mut().zip(u64::from(entry.address)..) {
                *byte = byte_or_zero(memory, address);
            }
        }
    }
}

/// A list knows where its ODTs lie in the pool.
#[derive(Clone, Copy, Debug, PartialEq, Eq)]
pub struct List {
    /// The place of its first ODT, which is also the number of its first packet.
    pub first: usize,
    count: usize,
    /// The event of the list's mode; none while the mode was never set.
    pub event: Option<u32>,
    pub selected: bool,
    running: bool,
    /// Bit by bit: its ODTs whose packets wait.
    unsent: u16,
}

impl List {
    pub const NEW: List = List {
        first: 0,
        count: 0,
        event: None,
        selected: false,
        running: false,
        unsent: 0,
    };

    pub fn give(&mut self, odts: usize) {
        self.count = odts;
    }

    pub fn odts(&self) -> Range<usize> {
        self.first..self.first + self.count
    }

    pub fn runs(&self) -> bool {
        self.running
    }

    pub fn runs_on(&self, event: u32) -> bool {
        self.running && self.event == Some(event)
    }

    pub fn start(&mut self) {
        self.running = true;
    }

    pub fn stop(&mut self) {
        self.running = false;
        self.unsent = 0;
    }

    pub fn has_packet(&self) -> bool {
        self.unsent != 0
    }

    /// Whether the packet of its ODT of this number waits.
    pub fn waits(&self, odt: usize) -> bool {
        self.unsent >> odt & 1 == 1
    }

    /// Captures all of its ODTs at once, so that nothing is read at send time.
    pub fn sample(
        &mut self,
        odts: &mut [Odt],
        pool: &[Entry],
        cal: &[u8],
        meas: &[u8],
        clock: u16,
    ) {
        let clock = clock.to_le_bytes();
        let mut id = self.first as u8;
        let mut bit = 1;
        let mut odts = odts.iter_mut();
        // The clock stands in the first packet alone, which is sent whether it has bytes or not.
        if let Some(odt) = odts.next() {
            odt.capture(&[id, clock[0], clock[1]], pool, cal, meas);
            self.unsent = bit;
        }
        for odt in odts {
            id += 1;
            bit <<= 1;
            odt.capture(&[id], pool, cal, meas);
            if odt.packet.bytes().len() > 1 {
                self.unsent |= bit;
            }
        }
    }

    /// The place of the ODT whose packet is next, which no longer waits then.
    pub fn next_sent(&mut self) -> Option<usize> {
        if self.unsent == 0 {
            return None;
        }
        let odt = self.unsent.trailing_zeros() as usize;
        self.unsent &= self.unsent - 1;
        Some(self.first + odt)
    }
}
