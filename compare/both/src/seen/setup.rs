//! What the tool has made of its lists, as far as the answers tell, and which packets of theirs wait.

use std::collections::HashMap;

/// List, ODT and entry.
type Place = [usize; 3];

/// How an entry came to have no bytes.
#[derive(Clone, Copy, PartialEq)]
pub enum Emptied {
    NeverWritten,
    Overwritten,
    Cleared,
    Freed,
    Ended,
    PoweredUp,
}

/// How far the tool has come with its lists.
#[derive(Clone, Copy, Debug, PartialEq)]
pub enum Stage {
    Fresh,
    Freed,
    Lists,
    Odts,
    Entries,
}

#[derive(Clone, Copy)]
pub struct Entry {
    pub size: u8,
    /// While it is empty.
    pub emptied: Emptied,
}

impl Entry {
    fn write(&mut self, size: u8, how: Emptied) {
        if self.size > 0 {
            self.emptied = how;
        }
        self.size = size;
    }
}

#[derive(Clone, Default)]
pub struct List {
    /// The entries of each.
    pub odts: Vec<Vec<Entry>>,
    pub event: Option<u8>,
    pub selected: bool,
    pub runs: bool,
    /// Packets of its last sample, and how many of them are unsent.
    packets: usize,
    pub unsent: usize,
    /// Entries were allocated before its own while it runs.
    pub passed: bool,
}

impl List {
    pub fn bytes(&self) -> impl Iterator<Item = usize> + '_ {
        let sum = |odt: &Vec<Entry>| odt.iter().map(|entry| usize::from(entry.size)).sum();
        self.odts.iter().map(sum)
    }

    fn start(&mut self) {
        self.runs = true;
    }

    fn stop(&mut self) {
        self.runs = false;
        self.unsent = 0;
        self.passed = false;
    }

    fn clear(&mut self) {
        self.event = None;
        self.selected = false;
        for entry in self.odts.iter_mut().flatten() {
            entry.write(0, Emptied::Cleared);
        }
    }
}

#[derive(Default)]
pub struct Setup {
    /// No command came that nobody knows.
    pub known: bool,
    freed: bool,
    pub lists: Vec<List>,
    pub pointer: Option<Place>,
    /// The last entry of an ODT of so many was written, and nothing was pointed at since.
    pub behind_last: Option<usize>,
    /// Entries were allocated before the one pointed at, since it was.
    pub pointer_passed: bool,
    /// FREE_DAQ unset the pointer.
    pub pointer_freed: bool,
    /// What became of entries with bytes whose lists are gone.
    lost: HashMap<Place, Emptied>,
}

impl Setup {
    /// A command that nobody knows: all may be otherwise until the lists are gone.
    pub fn forget(&mut self) {
        self.known = false;
    }

    /// The lists are gone, and in this way.
    pub fn end(&mut self, how: Emptied) {
        let mut lost = std::mem::take(&mut self.lost);
        let lists = self.lists.iter().filter(|_| self.known);
        for (l, list) in lists.enumerate() {
            for (o, odt) in list.odts.iter().enumerate() {
                for (e, _) in odt.iter().enumerate().filter(|(_, entry)| entry.size > 0) {
                    lost.insert([l, o, e], how);
                }
            }
        }
        *self = Setup {
            known: true,
            freed: how == Emptied::Freed,
            pointer_freed: how == Emptied::Freed && self.pointer.is_some(),
            lost,
            ..Setup::default()
        };
    }

    pub fn stage(&self) -> Stage {
        match (self.freed, self.lists.len(), self.odts(), self.entries()) {
            (false, ..) => Stage::Fresh,
            (_, 0, ..) => Stage::Freed,
            (_, _, 0, _) => Stage::Lists,
            (_, _, _, 0) => Stage::Odts,
            _ => Stage::Entries,
        }
    }

    /// How many ODTs all lists have together.
    pub fn odts(&self) -> usize {
        self.first(self.lists.len())
    }

    /// How many entries all ODTs have together.
    pub fn entries(&self) -> usize {
        self.lists.iter().flat_map(|l| &l.odts).map(Vec::len).sum()
    }

    /// The number of a list's first packet.
    pub fn first(&self, list: usize) -> usize {
        self.lists.iter().take(list).map(|l| l.odts.len()).sum()
    }

    /// The list and the ODT that packets of this number are of.
    pub fn packet(&self, number: u8) -> Option<(usize, usize)> {
        let number = usize::from(number);
        let list = (0..self.lists.len()).find(|l| number < self.first(l + 1))?;
        Some((list, number - self.first(list)))
    }

    /// The list that a command names.
    pub fn list(&self, packet: &[u8]) -> Option<&List> {
        self.lists.get(list_number(packet))
    }

    /// The ODT that a command names, which has these entries.
    pub fn odt(&self, packet: &[u8]) -> Option<&Vec<Entry>> {
        self.list(packet)?.odts.get(usize::from(packet[4]))
    }

    /// Lists that sample at this event, each with the number of its packets, where none of its last waits.
    pub fn event(&mut self, event: u32) -> Vec<usize> {
        let mut sampling = Vec::new();
        for (number, list) in self.lists.iter_mut().enumerate() {
            let on_it = list.runs && list.event.map(u32::from) == Some(event);
            if on_it && list.unsent == 0 {
                list.packets = 1 + list.bytes().skip(1).filter(|bytes| *bytes > 0).count();
                list.unsent = list.packets;
                sampling.push(number);
            }
        }
        sampling
    }

    /// A packet of this list was sent; the packets of its sample, if that was the last of them.
    pub fn sent(&mut self, list: usize) -> Option<usize> {
        let list = self.lists.get_mut(list)?;
        let last = list.unsent == 1;
        list.unsent = list.unsent.saturating_sub(1);
        last.then_some(list.packets)
    }

    pub fn answered(&mut self, packet: &[u8], answer: &[u8]) {
        match (packet[0], answer) {
            (0xFF | 0xFE, [0xFF, ..]) | (0xF7, [0xFE, 0x25]) => self.end(Emptied::Ended),
            (0xD6, [0xFF]) => self.end(Emptied::Freed),
            (_, [0xFF, ..]) => self.done(packet),
            _ => {}
        }
    }

    /// What was set up by a command that is no end to all of it.
    fn done(&mut self, packet: &[u8]) {
        let number = list_number(packet);
        match packet[0] {
            0xD5 => self.lists = vec![List::default(); number],
            0xD3 => self.entries_given(number, packet[4].into(), packet[5].into()),
            0xE2 => self.pointed([number, packet[4].into(), packet[5].into()]),
            0xE1 => self.written(packet[2]),
            0xDD => self.started_or_stopped(packet[1]),
            0xD4 | 0xE3 | 0xE0 | 0xDE => {
                if let Some(list) = self.lists.get_mut(number) {
                    match (packet[0], packet[1]) {
                        (0xD4, _) => list.odts = vec![Vec::new(); packet[4].into()],
                        (0xE3, _) => list.clear(),
                        (0xE0, _) => list.event = Some(packet[4]),
                        (_, 0) => list.stop(),
                        (_, 1) => list.start(),
                        _ => list.selected = true,
                    }
                }
            }
            _ => {}
        }
    }

    fn entries_given(&mut self, list: usize, odt: usize, count: usize) {
        let lost = &self.lost;
        let entries = (0..count).map(|entry| Entry {
            size: 0,
            emptied: *lost
                .get(&[list, odt, entry])
                .unwrap_or(&Emptied::NeverWritten),
        });
        let entries = entries.collect();
        for other in self.lists.iter_mut().skip(list) {
            other.passed |= other.runs;
        }
        self.pointer_passed |= self.pointer.map_or(false, |p| [p[0], p[1]] > [list, odt]);
        if let Some(given) = self.lists.get_mut(list).and_then(|l| l.odts.get_mut(odt)) {
            *given = entries;
        }
    }

    fn pointed(&mut self, place: Place) {
        self.pointer = Some(place);
        self.behind_last = None;
        self.pointer_passed = false;
        self.pointer_freed = false;
    }

    fn written(&mut self, size: u8) {
        let [list, odt, entry] = match self.pointer {
            Some(place) => place,
            None => return,
        };
        let entries = self.lists.get_mut(list).and_then(|l| l.odts.get_mut(odt));
        if let Some(entries) = entries {
            if let Some(written) = entries.get_mut(entry) {
                written.write(size, Emptied::Overwritten);
            }
            let next = entry + 1;
            self.pointer = (next < entries.len()).then_some([list, odt, next]);
            self.behind_last = (next >= entries.len()).then_some(next);
        }
    }

    /// START_STOP_SYNCH with this mode.
    fn started_or_stopped(&mut self, mode: u8) {
        for list in &mut self.lists {
            match (mode, list.selected) {
                (0, _) | (2, true) => list.stop(),
                (1, true) => list.start(),
                _ => {}
            }
            list.selected = false;
        }
    }
}

/// The number at byte 2, of a list or of lists; 0 where a packet has none.
fn list_number(packet: &[u8]) -> usize {
    match packet {
        [_, _, low, high, ..] => usize::from(*low) + 256 * usize::from(*high),
        _ => 0,
    }
}
