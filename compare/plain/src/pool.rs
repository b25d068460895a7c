//! The pool that the tool takes its lists, their ODTs and the entries of these out of.

use crate::line::MAX_PACKET;
use crate::lists::{Entry, List, Odt};
use crate::packet::Packet;

pub const LISTS: usize = 8;
pub const ODTS: usize = 16;
pub const ENTRIES: usize = 128;

/// A list's first packet also has to hold its number and the clock, a later one its number.
const FIRST_ROOM: usize = MAX_PACKET - 3;
const LATER_ROOM: usize = MAX_PACKET - 1;

/// How far the tool has come.
#[derive(Clone, Copy, Debug, PartialEq, Eq)]
pub enum Phase {
    /// Nothing was freed in this session yet.
    Fresh,
    Freed,
    Lists,
    Odts,
    Entries,
}

#[derive(Clone, Debug)]
pub struct Pool {
    phase: Phase,
    /// Of all three those from the count on are left from earlier, whatever they hold.
    lists: [List; LISTS],
    list_count: usize,
    /// In the order of the lists, so that an ODT's place is the number of its packet.
    odts: [Odt; ODTS],
    odt_count: usize,
    /// In the order in which they were allocated.
    entries: [Entry; ENTRIES],
    entry_count: usize,
    /// The list at which the round of the slots begins: the one after that served last.
    round: usize,
}

impl Pool {
    pub fn fresh() -> Pool {
        Pool {
            phase: Phase::Fresh,
            lists: [List::NEW; LISTS],
            list_count: 0,
            odts: [Odt::NEW; ODTS],
            odt_count: 0,
            entries: [Entry::EMPTY; ENTRIES],
            entry_count: 0,
            round: 0,
        }
    }

    /// Makes it a fresh one; no more bytes are touched than that takes.
    pub fn end(&mut self) {
        self.free();
        self.phase = Phase::Fresh;
    }

    pub fn free(&mut self) {
        self.phase = Phase::Freed;
        self.list_count = 0;
        self.odt_count = 0;
        self.entry_count = 0;
        self.round = 0;
    }

    pub fn phase(&self) -> Phase {
        self.phase
    }

    pub fn lists(&self) -> &[List] {
        &self.lists[..self.list_count]
    }

    pub fn lists_mut(&mut self) -> &mut [List] {
        &mut self.lists[..self.list_count]
    }

    pub fn odts_left(&self) -> usize {
        ODTS - self.odt_count
    }

    pub fn entries_left(&self) -> usize {
        ENTRIES - self.entry_count
    }

    /// How many entries this ODT of this list has; none if it is not there.
    pub fn entries_of(&self, list: usize, odt: usize) -> Option<usize> {
        let place = self.lists().get(list)?.odts().nth(odt)?;
        Some(self.odts[place].entries().len())
    }

    pub fn add_lists(&mut self, count: usize) {
        self.lists[..count].fill(List::NEW);
        self.list_count = count;
        self.phase = Phase::Lists;
    }

    /// Gives ODTs to a list; no ODT has anything in it yet, so only their numbers move.
    pub fn add_odts(&mut self, list: usize, count: usize) {
        let added = self.odt_count..self.odt_count + count;
        self.odt_count = added.end;
        for odt in &mut self.odts[added] {
            odt.give(0..0);
        }
        self.lists[list].give(count);
        let mut next = 0;
        for list in self.lists_mut() {
            list.first = next;
            next = list.odts().end;
        }
        self.phase = Phase::Odts;
    }

    /// Gives entries to an ODT, all of size 0.
    pub fn add_entries(&mut self, list: usize, odt: usize, count: usize) {
        let added = self.entry_count..self.entry_count + count;
        self.entry_count = added.end;
        self.entries[added.clone()].fill(Entry::EMPTY);
        self.odts[self.lists[list].first + odt].give(added);
        self.phase = Phase::Entries;
    }

    pub fn set_entry(&mut self, list: usize, odt: usize, at: usize, entry: Entry) {
        let odt = &self.odts[self.lists[list].first + odt];
        self.entries[odt.entries()][at] = entry;
    }

    /// CLEAR_DAQ_LIST: the list keeps its ODTs, and these their entries.
    pub fn clear(&mut self, list: usize) {
        let list = &mut self.lists[list];
        for odt in &self.odts[list.odts()] {
            self.entries[odt.entries()].fill(Entry::EMPTY);
        }
        list.event = None;
        list.selected = false;
    }

    /// Whether a start of this list would be done; starting a running one is never refused.
    pub fn may_start(&self, list: usize) -> bool {
        let list = &self.lists[list];
        list.runs() || (list.event.is_some() && self.fits(list))
    }

    /// Whether the list has anything to sample, and each of its packets has the room.
    fn fits(&self, list: &List) -> bool {
        let (mut room, mut all) = (FIRST_ROOM, 0);
        for odt in &self.odts[list.odts()] {
            let entries = &self.entries[odt.entries()];
            let bytes: usize = entries.iter().map(|e| usize::from(e.size)).sum();
            if bytes > room {
                return false;
            }
            all += bytes;
            room = LATER_ROOM;
        }
        all > 0
    }

    /// Has the running lists of this event take a sample: how many do, and how many miss it.
    pub fn sample(&mut self, cal: &[u8], meas: &[u8], event: u32, clock: u16) -> (u32, u32) {
        let (mut sampled, mut missed) = (0, 0);
        for list in &mut self.lists[..self.list_count] {
            if !list.runs_on(event) {
                continue;
            }
            if list.has_packet() {
                missed += 1;
            } else {
                let odts = &mut self.odts[list.odts()];
                list.sample(odts, &self.entries, cal, meas, clock);
                sampled += 1;
            }
        }
        (sampled, missed)
    }

    /// The list whose turn it is: the round ends where it began.
    pub fn next_in_turn(&self) -> Option<usize> {
        let mut list = self.round;
        for _ in 0..self.list_count {
            if self.lists[list].has_packet() {
                return Some(list);
            }
            list = self.after(list);
        }
        None
    }

    fn after(&self, list: usize) -> usize {
        if list + 1 < self.list_count {
            list + 1
        } else {
            0
        }
    }

    /// The next packet of this list, which counts as served now.
    pub fn serve(&mut self, list: usize) -> Option<&mut Packet> {
        self.round = self.after(list);
        let place = self.lists[list].next_sent()?;
        Some(&mut self.odts[place].packet)
    }
}

/// Two are the same where nothing tells them apart: entries may lie in another order.
impl PartialEq for Pool {
    fn eq(&self, other: &Pool) -> bool {
        self.phase == other.phase
            && self.round == other.round
            && self.lists() == other.lists()
            && self.contents().eq(other.contents())
    }
}

impl Eq for Pool {}

impl Pool {
    /// The entries of each ODT, and its packet if that waits.
    fn contents(&self) -> impl Iterator<Item = (&[Entry], Option<&Packet>)> {
        self.lists().iter().flat_map(move |list| {
            list.odts().enumerate().map(move |(number, place)| {
                let odt = &self.odts[place];
                let packet = list.waits(number).then_some(&odt.packet);
                (&self.entries[odt.entries()], packet)
            })
        })
    }
}
