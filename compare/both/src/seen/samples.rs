//! What events sample, and the packets that slots send of it.

use super::cases::{LISTS, ODTS};
use super::named;
use super::setup::Setup;
use crate::wire::LONGEST;

/// The cases, in the order of their names.
enum Case {
    Passed,
    FirstLongest,
    LaterLongest,
    LaterSkipped,
    RoundAnew,
    DroppedAll,
    DroppedLast,
}

const NAMES: [&str; 7] = [
    "a sample of a list before which entries were allocated while it runs",
    "64 bytes of a first ODT",
    "64 bytes of a later ODT",
    "a packet behind that of an ODT not next to its own",
    "list 0 served first after a FREE_DAQ, where the round before would have gone on with another",
    "a stop that drops sixteen packets",
    "a stop that drops the last of sixteen packets alone",
];

#[derive(Default)]
pub struct Samples {
    /// By the lists that sampled, then those that missed.
    counts: [[u64; LISTS + 1]; LISTS + 1],
    /// By the packets of a sample that was sent whole.
    packets: [u64; ODTS],
    /// By a packet's number.
    frames: [u64; ODTS],
    /// The list served last, and the ODT of its packet.
    served: Option<(usize, usize)>,
    /// The list served last before a FREE_DAQ, until another is served.
    before: Option<usize>,
    cases: [u64; NAMES.len()],
}

impl Samples {
    pub fn event(&mut self, setup: &mut Setup, event: u32, counts: usize) {
        self.counts[counts / 256][counts % 256] += 1;
        for list in setup.event(event) {
            if setup.known && setup.lists[list].passed {
                self.count(Case::Passed);
            }
        }
    }

    /// A slot has sent this packet of a list.
    pub fn sent(&mut self, setup: &mut Setup, packet: &[u8]) {
        if let Some(count) = self.frames.get_mut(usize::from(packet[0])) {
            *count += 1;
        }
        if let Some((list, odt)) = setup.packet(packet[0]).filter(|_| setup.known) {
            self.told_apart(setup, list, odt, packet.len());
            if let Some(packets) = setup.sent(list) {
                self.packets[packets - 1] += 1;
            }
            self.served = Some((list, odt));
        }
    }

    pub fn answered(&mut self, setup: &Setup, packet: &[u8], answer: &[u8]) {
        if let ([0xDE, 0, ..], [0xFF, _], Some(list)) = (packet, answer, setup.list(packet)) {
            match (list.unsent, list.bytes().filter(|bytes| *bytes > 0).count()) {
                (16, 16) => self.count(Case::DroppedAll),
                (1, 16) => self.count(Case::DroppedLast),
                _ => {}
            }
        }
        match (packet[0], answer) {
            (0xD6, [0xFF]) => self.before = self.served.take().map(|(list, _)| list),
            (0xFF | 0xFE, [0xFF, ..]) => self.served = None,
            _ => {}
        }
    }

    fn told_apart(&mut self, setup: &Setup, list: usize, odt: usize, length: usize) {
        match (length == LONGEST, odt) {
            (true, 0) => self.count(Case::FirstLongest),
            (true, _) => self.count(Case::LaterLongest),
            _ => {}
        }
        if let Some((last, before)) = self.served {
            if last == list && before + 1 < odt {
                self.count(Case::LaterSkipped);
            }
        }
        if let Some(before) = self.before.take() {
            let next = setup.lists.get(before + 1);
            if list == 0 && next.map_or(false, |next| next.unsent > 0) {
                self.count(Case::RoundAnew);
            }
        }
    }

    fn count(&mut self, case: Case) {
        self.cases[case as usize] += 1;
    }

    /// Every count of lists that sampled and that missed.
    pub fn counts(&self) -> Vec<(String, u64)> {
        let mut counts = Vec::new();
        for (sampled, row) in self.counts.iter().enumerate() {
            for (missed, count) in row.iter().enumerate().take(LISTS + 1 - sampled) {
                counts.push((format!("{} and {}", sampled, missed), *count));
            }
        }
        counts
    }

    pub fn packets(&self) -> Vec<(String, u64)> {
        let numbers: Vec<usize> = (1..=ODTS).collect();
        named(&numbers, &self.packets)
    }

    pub fn frames(&self) -> Vec<(String, u64)> {
        let numbers = (0..ODTS).map(|number| format!("packet {:02X}", number));
        numbers.zip(self.frames).collect()
    }

    pub fn cells(&self) -> Vec<(String, u64)> {
        named(&NAMES, &self.cases)
    }
}
