//! What was covered of the pool that lists are taken from.

use super::cases::{Case, ALLOC_DAQ, ALLOC_ODT, ALLOC_ODT_ENTRY, FREE, LISTS, ODTS, OTHERS};
use super::named;
use super::setup::Setup;

#[derive(Default)]
pub struct Pool {
    free: [u64; FREE.len()],
    alloc_daq: [u64; ALLOC_DAQ.len()],
    alloc_odt: [u64; ALLOC_ODT.len()],
    alloc_odt_entry: [u64; ALLOC_ODT_ENTRY.len()],
    others: [u64; OTHERS.len()],
    /// By the lists that GET_DAQ_PROCESSOR_INFO told.
    told: [u64; LISTS + 1],
    /// By the first packet number that START_STOP_DAQ_LIST told: of any list, of one that it started.
    firsts: [u64; ODTS + 1],
    started: [u64; ODTS],
}

impl Pool {
    /// With the lists as they are by this answer, before what it says.
    pub fn answered(&mut self, setup: &Setup, packet: &[u8], answer: &[u8]) {
        match (packet, answer) {
            ([0xDA, ..], [0xFF, _, lists, ..]) => bump(&mut self.told, *lists),
            ([0xDE, mode, ..], [0xFF, first]) => {
                bump(&mut self.firsts, *first);
                if *mode == 1 {
                    bump(&mut self.started, *first);
                }
            }
            _ => {}
        }
        // A shorter command has no number there that a case would look at.
        let mut padded = packet.to_vec();
        padded.resize(packet.len().max(6), 0);
        let case = (setup, padded.as_slice(), answer);
        match (packet[0], packet.len(), setup.known) {
            (0xD6, _, true) if answer == [0xFF] => count(&mut self.free, &FREE, case),
            (0xD5, 4.., true) => count(&mut self.alloc_daq, &ALLOC_DAQ, case),
            (0xD4, 5.., true) => count(&mut self.alloc_odt, &ALLOC_ODT, case),
            (0xD3, 6.., true) => count(&mut self.alloc_odt_entry, &ALLOC_ODT_ENTRY, case),
            (0xE2, 6.., true) | (0xE3 | 0xE1 | 0xE0 | 0xDE, 4.., true) => {
                count(&mut self.others, &OTHERS, case);
            }
            _ => {}
        }
    }

    pub fn groups(&self) -> Vec<(&'static str, Vec<(String, u64)>)> {
        let mut cases = named(&FREE.map(|case| case.0), &self.free);
        cases.extend(named(&ALLOC_DAQ.map(|case| case.0), &self.alloc_daq));
        cases.extend(named(&ALLOC_ODT.map(|case| case.0), &self.alloc_odt));
        let entries = ALLOC_ODT_ENTRY.map(|case| case.0);
        cases.extend(named(&entries, &self.alloc_odt_entry));
        cases.extend(named(&OTHERS.map(|case| case.0), &self.others));
        vec![
            ("The pool with", cases),
            ("Lists told", numbered(&self.told)),
            ("First packet numbers told", numbered(&self.firsts)),
            (
                "First packet numbers of lists started",
                numbered(&self.started),
            ),
        ]
    }
}

fn count(counts: &mut [u64], cases: &[Case], (setup, packet, answer): (&Setup, &[u8], &[u8])) {
    for (count, (_, is)) in counts.iter_mut().zip(cases) {
        *count += u64::from(is(setup, packet, answer));
    }
}

/// A number that should not be there is no cover, and the comparison finds it.
fn bump(counts: &mut [u64], number: u8) {
    if let Some(count) = counts.get_mut(usize::from(number)) {
        *count += 1;
    }
}

fn numbered(counts: &[u64]) -> Vec<(String, u64)> {
    let numbers: Vec<usize> = (0..counts.len()).collect();
    named(&numbers, counts)
}
