//! What a start covers by the entries of its list, and by those that it had and lost.

use super::cases::LISTS;
use super::named;
use super::setup::{Emptied, Entry, List, Setup};

/// The most bytes of a list's first ODT and of each later one.
const FIRST: usize = 61;
const LATER: usize = 63;

type Case = (&'static str, fn(&List) -> bool);

/// Of a list that starts.
const STARTED: [Case; 17] = [
    (
        "a start with an entry behind one that was written over with no bytes",
        |list| empty_before(list, Emptied::Overwritten),
    ),
    (
        "a start with an entry behind one that CLEAR_DAQ_LIST emptied",
        |list| empty_before(list, Emptied::Cleared),
    ),
    (
        "a start with an entry behind one of ODT 15 that CLEAR_DAQ_LIST emptied",
        |list| {
            list.odts
                .get(15)
                .map_or(false, |odt| has_before(odt, Emptied::Cleared))
        },
    ),
    (
        "a start with an entry behind one that had bytes before a FREE_DAQ",
        |list| empty_before(list, Emptied::Freed),
    ),
    (
        "a start with an entry behind one that had bytes before a session's end",
        |list| empty_before(list, Emptied::Ended),
    ),
    (
        "a start with an entry behind one that had bytes before a power-up",
        |list| empty_before(list, Emptied::PoweredUp),
    ),
    (
        "a start with an entry behind one that was never written",
        |list| empty_before(list, Emptied::NeverWritten),
    ),
    ("a start with 61 bytes in the first ODT", |list| {
        list.bytes().next() == Some(FIRST)
    }),
    ("a start with 63 bytes in a later ODT", |list| {
        list.bytes().skip(1).any(|bytes| bytes == LATER)
    }),
    ("a start with 63 bytes in ODT 15", |list| {
        list.bytes().nth(15) == Some(LATER)
    }),
    ("a start with sixteen entries in each of two ODTs", |list| {
        list.odts.len() == 2 && list.odts.iter().all(|odt| odt.len() == 16)
    }),
    ("a start with bytes in sixteen ODTs", |list| {
        list.odts.len() == 16 && list.bytes().all(|bytes| bytes > 0)
    }),
    ("a start with 128 entries in one ODT", |list| {
        list.odts.iter().any(|odt| odt.len() == 128)
    }),
    ("a start with bytes in entry 127", |list| {
        let mut odts = list.odts.iter();
        odts.any(|odt| odt.get(127).map_or(false, |entry| entry.size > 0))
    }),
    ("a start with no bytes in the first ODT", |list| {
        list.bytes().next() == Some(0)
    }),
    ("a start with no entries in the first ODT", |list| {
        list.odts[0].is_empty()
    }),
    ("a start with no entries in an ODT before others", |list| {
        let last = list.bytes().collect::<Vec<_>>();
        let last = last.iter().rposition(|bytes| *bytes > 0).unwrap_or(0);
        list.odts.iter().take(last).skip(1).any(Vec::is_empty)
    }),
];

/// Of a list with a mode that does not start.
const UNFIT: [Case; 8] = [
    ("a start refused for 62 bytes in the first ODT", |list| {
        over(list) == [(0, FIRST + 1)]
    }),
    ("a start refused for 64 bytes in ODT 1", |list| {
        over(list) == [(1, LATER + 1)]
    }),
    ("a start refused for 64 bytes in ODT 15", |list| {
        over(list) == [(15, LATER + 1)]
    }),
    (
        "a start refused for 64 bytes in an ODT between",
        |list| matches!(over(list)[..], [(odt, 64)] if odt > 1 && odt + 1 < list.odts.len()),
    ),
    ("a start refused for 256 bytes in an ODT", |list| {
        over(list).iter().any(|(_, bytes)| *bytes == 256)
    }),
    ("a start refused without ODTs", |list| list.odts.is_empty()),
    ("a start refused without entries", |list| {
        !list.odts.is_empty() && list.odts.iter().all(Vec::is_empty)
    }),
    ("a start refused without bytes", |list| {
        list.odts.iter().any(|odt| !odt.is_empty()) && list.bytes().all(|bytes| bytes == 0)
    }),
];

type SynchCase = (&'static str, fn(&[List], u8, bool) -> bool);

/// Of a START_STOP_SYNCH: by the lists, its mode, and whether it was done.
const SYNCH: [SynchCase; 6] = [
    ("a start of eight lists at once", |lists, mode, done| {
        done && mode == 1 && selected(lists).len() == LISTS
    }),
    ("a start at once of list 7 alone", |lists, mode, done| {
        done && mode == 1 && selected(lists) == [7]
    }),
    (
        "a start at once refused for list 7 alone",
        |lists, mode, done| !done && mode == 1 && selected(lists) == [7],
    ),
    (
        "a start at once refused for one of eight",
        |lists, mode, done| {
            let without = |list: &&List| list.event.is_none();
            let unfit = lists.iter().filter(without).count();
            !done && mode == 1 && selected(lists).len() == LISTS && unfit == 1
        },
    ),
    (
        "a stop at once of list 7 alone of eight that run",
        |lists, mode, _| mode == 2 && selected(lists) == [7] && running(lists).len() == LISTS,
    ),
    ("a stop of eight lists at once", |lists, mode, _| {
        mode == 0 && running(lists).len() == LISTS
    }),
];

#[derive(Default)]
pub struct Lists {
    started: [u64; STARTED.len()],
    unfit: [u64; UNFIT.len()],
    synch: [u64; SYNCH.len()],
    /// By the one list that ran at a GET_STATUS.
    alone: [u64; LISTS],
}

impl Lists {
    /// With the lists as they are by this answer.
    pub fn answered(&mut self, setup: &Setup, packet: &[u8], answer: &[u8]) {
        let list = match (packet, setup.known) {
            ([0xDE, 1, ..], true) => setup.list(packet),
            _ => None,
        };
        match (answer, list) {
            ([0xFF, _], Some(list)) => count(&mut self.started, &STARTED, list),
            ([0xFE, 0x2A], Some(list)) if list.event.is_some() => {
                count(&mut self.unfit, &UNFIT, list);
            }
            _ => {}
        }
        if setup.known {
            self.together(&setup.lists, packet, answer);
        }
    }

    /// What is of all lists together.
    fn together(&mut self, lists: &[List], packet: &[u8], answer: &[u8]) {
        match (packet, answer) {
            ([0xFD, ..], _) => {
                if let [list] = running(lists)[..] {
                    self.alone[list] += 1;
                }
            }
            ([0xDD, mode, ..], [0xFF] | [0xFE, 0x2A]) => {
                for (count, (_, is)) in self.synch.iter_mut().zip(SYNCH) {
                    *count += u64::from(is(lists, *mode, answer == [0xFF]));
                }
            }
            _ => {}
        }
    }

    pub fn cells(&self) -> Vec<(String, u64)> {
        let mut cells = named(&STARTED.map(|case| case.0), &self.started);
        cells.extend(named(&UNFIT.map(|case| case.0), &self.unfit));
        cells.extend(named(&SYNCH.map(|case| case.0), &self.synch));
        for (list, count) in self.alone.iter().enumerate() {
            cells.push((
                format!("a GET_STATUS while list {} alone runs", list),
                *count,
            ));
        }
        cells
    }
}

fn count(counts: &mut [u64], cases: &[Case], list: &List) {
    for (count, (_, is)) in counts.iter_mut().zip(cases) {
        *count += u64::from(is(list));
    }
}

/// Whether an entry that was emptied so stands before one with bytes.
fn empty_before(list: &List, how: Emptied) -> bool {
    list.odts.iter().any(|odt| has_before(odt, how))
}

fn has_before(odt: &[Entry], how: Emptied) -> bool {
    let last = odt.iter().rposition(|entry| entry.size > 0).unwrap_or(0);
    let mut before = odt[..last].iter();
    before.any(|entry| entry.size == 0 && entry.emptied == how)
}

/// The numbers of those that are selected.
fn selected(lists: &[List]) -> Vec<usize> {
    (0..lists.len()).filter(|l| lists[*l].selected).collect()
}

fn running(lists: &[List]) -> Vec<usize> {
    (0..lists.len()).filter(|l| lists[*l].runs).collect()
}

/// The ODTs that have too many bytes, and how many.
fn over(list: &List) -> Vec<(usize, usize)> {
    let most = |odt: usize| if odt == 0 { FIRST } else { LATER };
    let bytes = list.bytes().enumerate();
    bytes.filter(|(odt, bytes)| *bytes > most(*odt)).collect()
}
