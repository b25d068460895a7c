//! FREE_DAQ and the three that allocate: each outcome for each of its reasons, and which is judged first;
//! and what other commands meet of the pool's sizes.

use super::setup::{Setup, Stage};

pub const LISTS: usize = 8;
pub const ODTS: usize = 16;
const ENTRIES: usize = 128;

/// By what is set up, the packet, its answer.
pub type Case = (&'static str, fn(&Setup, &[u8], &[u8]) -> bool);

const OVERFLOW: [u8; 2] = [0xFE, 0x30];
const SEQUENCE: [u8; 2] = [0xFE, 0x29];
const RANGE: [u8; 2] = [0xFE, 0x22];
const RUNS: [u8; 2] = [0xFE, 0x11];

pub const FREE: [Case; 8] = [
    ("a FREE_DAQ as the first in its session", |s, _, _| {
        s.stage() == Stage::Fresh
    }),
    ("a FREE_DAQ after another", |s, _, _| {
        s.stage() == Stage::Freed
    }),
    ("a FREE_DAQ of lists without ODTs", |s, _, _| {
        s.stage() == Stage::Lists
    }),
    ("a FREE_DAQ of ODTs without entries", |s, _, _| {
        s.stage() == Stage::Odts
    }),
    ("a FREE_DAQ of the whole pool", |s, _, _| {
        s.odts() == ODTS && s.entries() == ENTRIES
    }),
    ("a FREE_DAQ while lists run and nothing waits", |s, _, _| {
        s.lists.iter().any(|l| l.runs) && s.lists.iter().all(|l| l.unsent == 0)
    }),
    ("a FREE_DAQ while packets wait", |s, _, _| {
        s.lists.iter().any(|l| l.unsent > 0)
    }),
    ("a FREE_DAQ while eight lists run", |s, _, _| {
        s.lists.iter().filter(|l| l.runs).count() == LISTS
    }),
];

pub const ALLOC_DAQ: [Case; 12] = [
    ("an ALLOC_DAQ before any FREE_DAQ", |s, _, a| {
        a == SEQUENCE && s.stage() == Stage::Fresh
    }),
    ("an ALLOC_DAQ after another", |s, _, a| {
        a == SEQUENCE && s.stage() == Stage::Lists
    }),
    ("an ALLOC_DAQ after ALLOC_ODT", |s, _, a| {
        a == SEQUENCE && s.stage() == Stage::Odts
    }),
    ("an ALLOC_DAQ after ALLOC_ODT_ENTRY", |s, _, a| {
        a == SEQUENCE && s.stage() == Stage::Entries
    }),
    ("an ALLOC_DAQ out of order, its count 0 too", |_, p, a| {
        a == SEQUENCE && word(p) == 0
    }),
    (
        "an ALLOC_DAQ out of order, its count above 8 too",
        |_, p, a| a == SEQUENCE && word(p) > LISTS,
    ),
    ("an ALLOC_DAQ of 0", |_, p, a| a == RANGE && word(p) == 0),
    ("an ALLOC_DAQ of 1", |_, p, a| a == [0xFF] && word(p) == 1),
    ("an ALLOC_DAQ of 8", |_, p, a| {
        a == [0xFF] && word(p) == LISTS
    }),
    ("an ALLOC_DAQ of 9", |_, p, a| {
        a == OVERFLOW && word(p) == LISTS + 1
    }),
    ("an ALLOC_DAQ of 256", |_, p, a| {
        a == OVERFLOW && word(p) == 256
    }),
    (
        "an ALLOC_DAQ above 256 whose low byte is a good one",
        |_, p, a| a == OVERFLOW && p[3] > 0 && (1..=8).contains(&p[2]),
    ),
];

pub const ALLOC_ODT: [Case; 20] = [
    ("an ALLOC_ODT before any FREE_DAQ", |s, _, a| {
        a == SEQUENCE && s.stage() == Stage::Fresh
    }),
    ("an ALLOC_ODT before ALLOC_DAQ", |s, _, a| {
        a == SEQUENCE && s.stage() == Stage::Freed
    }),
    ("a second ALLOC_ODT of a list", |s, p, a| {
        a == SEQUENCE && s.stage() == Stage::Odts && has_odts(s, p)
    }),
    ("a second ALLOC_ODT, its count 0 too", |s, p, a| {
        a == SEQUENCE && s.stage() == Stage::Odts && p[4] == 0
    }),
    ("a second ALLOC_ODT, more than is left too", |s, p, a| {
        a == SEQUENCE && s.stage() == Stage::Odts && odts_after(s, p) > ODTS
    }),
    (
        "an ALLOC_ODT after ALLOC_ODT_ENTRY, of a list without ODTs",
        |s, p, a| a == SEQUENCE && s.stage() == Stage::Entries && !has_odts(s, p),
    ),
    (
        "an ALLOC_ODT after ALLOC_ODT_ENTRY, of a list that is not there",
        |s, p, a| a == SEQUENCE && s.stage() == Stage::Entries && s.list(p).is_none(),
    ),
    ("an ALLOC_ODT of a list that runs", |s, p, a| {
        a == SEQUENCE && runs(s, p)
    }),
    ("an ALLOC_ODT of the list behind the last", |s, p, a| {
        a == RANGE && word(p) == s.lists.len()
    }),
    (
        "an ALLOC_ODT of a list above 255 whose low byte is one with ODTs",
        |s, p, a| a == RANGE && p[3] > 0 && has_odts(s, &low(p)),
    ),
    ("an ALLOC_ODT of 0", |s, p, a| {
        a == RANGE && p[4] == 0 && s.list(p).is_some()
    }),
    ("an ALLOC_ODT of 0 where none is left", |s, p, a| {
        a == RANGE && p[4] == 0 && s.odts() == ODTS && s.list(p).is_some()
    }),
    (
        "an ALLOC_ODT of a list that is not there, more than is left too",
        |s, p, a| a == RANGE && s.list(p).is_none() && odts_after(s, p) > ODTS,
    ),
    ("an ALLOC_ODT of 17 where none is taken", |s, p, a| {
        a == OVERFLOW && s.odts() == 0 && odts_after(s, p) == ODTS + 1
    }),
    ("an ALLOC_ODT of one more than is left", |s, p, a| {
        a == OVERFLOW && s.odts() > 0 && odts_after(s, p) == ODTS + 1
    }),
    ("an ALLOC_ODT of 1 where none is left", |s, p, a| {
        a == OVERFLOW && s.odts() == ODTS && p[4] == 1
    }),
    (
        "an ALLOC_ODT of more than is left, which modulo 256 is not",
        |s, p, a| a == OVERFLOW && odts_after(s, p) % 256 <= ODTS,
    ),
    ("an ALLOC_ODT of 16 where none is taken", |s, p, a| {
        a == [0xFF] && s.odts() == 0 && odts_after(s, p) == ODTS
    }),
    ("an ALLOC_ODT of all that is left", |s, p, a| {
        a == [0xFF] && s.odts() > 0 && odts_after(s, p) == ODTS
    }),
    (
        "an ALLOC_ODT of a list before one that has ODTs",
        |s, p, a| a == [0xFF] && s.odts() > s.first(word(p)),
    ),
];

pub const ALLOC_ODT_ENTRY: [Case; 30] = [
    ("an ALLOC_ODT_ENTRY before any FREE_DAQ", |s, _, a| {
        a == SEQUENCE && s.stage() == Stage::Fresh
    }),
    ("an ALLOC_ODT_ENTRY before ALLOC_DAQ", |s, _, a| {
        a == SEQUENCE && s.stage() == Stage::Freed
    }),
    ("an ALLOC_ODT_ENTRY before ALLOC_ODT", |s, _, a| {
        a == SEQUENCE && s.stage() == Stage::Lists
    }),
    ("a second ALLOC_ODT_ENTRY of an ODT", |s, p, a| {
        a == SEQUENCE && has_entries(s, p) && p[5] > 0
    }),
    ("a second ALLOC_ODT_ENTRY, its count 0 too", |s, p, a| {
        a == SEQUENCE && has_entries(s, p) && p[5] == 0
    }),
    (
        "a second ALLOC_ODT_ENTRY, more than is left too",
        |s, p, a| a == SEQUENCE && has_entries(s, p) && entries_after(s, p) > ENTRIES,
    ),
    ("a second ALLOC_ODT_ENTRY, its list runs too", |s, p, a| {
        a == SEQUENCE && has_entries(s, p) && runs(s, p)
    }),
    (
        "an ALLOC_ODT_ENTRY of the list behind the last",
        |s, p, a| a == RANGE && word(p) == s.lists.len(),
    ),
    (
        "an ALLOC_ODT_ENTRY of a list above 255 whose low byte is one with entries",
        |s, p, a| a == RANGE && p[3] > 0 && has_entries(s, &low(p)),
    ),
    ("an ALLOC_ODT_ENTRY of a list without ODTs", |s, p, a| {
        a == RANGE && s.list(p).map_or(false, |list| list.odts.is_empty())
    }),
    (
        "an ALLOC_ODT_ENTRY of the ODT behind the last",
        |s, p, a| {
            let odts = s.list(p).map_or(0, |list| list.odts.len());
            a == RANGE && odts > 0 && usize::from(p[4]) == odts
        },
    ),
    ("an ALLOC_ODT_ENTRY of 0", |s, p, a| {
        a == RANGE && p[5] == 0 && s.odt(p).is_some()
    }),
    ("an ALLOC_ODT_ENTRY of 0 where none is left", |s, p, a| {
        a == RANGE && p[5] == 0 && s.odt(p).is_some() && s.entries() == ENTRIES
    }),
    ("an ALLOC_ODT_ENTRY of 0, its list runs too", |s, p, a| {
        a == RANGE && p[5] == 0 && s.odt(p).is_some() && runs(s, p)
    }),
    (
        "an ALLOC_ODT_ENTRY of an ODT that is not there, its list runs too",
        |s, p, a| a == RANGE && s.odt(p).is_none() && runs(s, p),
    ),
    (
        "an ALLOC_ODT_ENTRY of an ODT that is not there, more than is left too",
        |s, p, a| a == RANGE && s.odt(p).is_none() && entries_after(s, p) > ENTRIES,
    ),
    ("an ALLOC_ODT_ENTRY of a list that runs", |s, p, a| {
        a == RUNS && entries_after(s, p) <= ENTRIES
    }),
    (
        "an ALLOC_ODT_ENTRY of a list that runs, more than is left too",
        |s, p, a| a == RUNS && entries_after(s, p) > ENTRIES,
    ),
    (
        "an ALLOC_ODT_ENTRY of 129 where none is taken",
        |s, p, a| a == OVERFLOW && s.entries() == 0 && entries_after(s, p) == ENTRIES + 1,
    ),
    ("an ALLOC_ODT_ENTRY of one more than is left", |s, p, a| {
        a == OVERFLOW && s.entries() > 0 && entries_after(s, p) == ENTRIES + 1
    }),
    ("an ALLOC_ODT_ENTRY of 1 where none is left", |s, p, a| {
        a == OVERFLOW && s.entries() == ENTRIES && p[5] == 1
    }),
    (
        "an ALLOC_ODT_ENTRY of more than is left, which modulo 256 is not",
        |s, p, a| a == OVERFLOW && entries_after(s, p) % 256 <= ENTRIES,
    ),
    (
        "an ALLOC_ODT_ENTRY of more than is left while another list runs",
        |s, _, a| a == OVERFLOW && s.lists.iter().any(|l| l.runs),
    ),
    (
        "an ALLOC_ODT_ENTRY of 128 where none is taken",
        |s, p, a| a == [0xFF] && s.entries() == 0 && entries_after(s, p) == ENTRIES,
    ),
    ("an ALLOC_ODT_ENTRY of all that is left", |s, p, a| {
        a == [0xFF] && s.entries() > 0 && entries_after(s, p) == ENTRIES
    }),
    (
        "an ALLOC_ODT_ENTRY before an ODT of its list that has entries",
        |s, p, a| a == [0xFF] && has_entries_behind(s, p),
    ),
    (
        "an ALLOC_ODT_ENTRY before a list that has entries and stands",
        |s, p, a| {
            a == [0xFF]
                && s.lists
                    .iter()
                    .skip(word(p) + 1)
                    .any(|l| l.bytes().sum::<usize>() > 0 && !l.runs)
        },
    ),
    ("an ALLOC_ODT_ENTRY before a list that runs", |s, p, a| {
        a == [0xFF] && s.lists.iter().skip(word(p) + 1).any(|l| l.runs)
    }),
    (
        "an ALLOC_ODT_ENTRY before 127 entries with bytes, while they run",
        |s, p, a| {
            let behind = || s.lists.iter().skip(word(p) + 1).filter(|l| l.runs);
            let entries = behind().flat_map(|list| list.odts.iter().flatten());
            a == [0xFF] && entries.filter(|entry| entry.size > 0).count() == 127
        },
    ),
    ("an ALLOC_ODT_ENTRY behind a list that runs", |s, p, a| {
        a == [0xFF] && s.lists.iter().take(word(p)).any(|l| l.runs)
    }),
];

pub const OTHERS: [Case; 21] = [
    ("a list command where there are no lists", |s, p, a| {
        a == RANGE && names_list(p) && s.lists.is_empty()
    }),
    ("a CLEAR_DAQ_LIST of the list behind the last", |s, p, a| {
        a == RANGE && p[0] == 0xE3 && behind_lists(s, p)
    }),
    ("a SET_DAQ_PTR to the list behind the last", |s, p, a| {
        a == RANGE && p[0] == 0xE2 && behind_lists(s, p)
    }),
    (
        "a SET_DAQ_LIST_MODE of the list behind the last",
        |s, p, a| a == RANGE && p[0] == 0xE0 && behind_lists(s, p),
    ),
    (
        "a START_STOP_DAQ_LIST of the list behind the last",
        |s, p, a| a == RANGE && p[0] == 0xDE && behind_lists(s, p),
    ),
    (
        "a list command to a list above 255 whose low byte is there",
        |s, p, a| a == RANGE && names_list(p) && p[3] > 0 && s.list(&low(p)).is_some(),
    ),
    ("a list command to list 7", |_, p, a| {
        a[0] == 0xFF && names_list(p) && word(p) == 7
    }),
    ("a SET_DAQ_PTR to ODT 15", |_, p, a| {
        a == [0xFF] && p[0] == 0xE2 && p[4] == 15
    }),
    ("a SET_DAQ_PTR to entry 127", |_, p, a| {
        a == [0xFF] && p[0] == 0xE2 && p[5] == 127
    }),
    ("a SET_DAQ_PTR to entry 128", |_, p, a| {
        a == RANGE && p[0] == 0xE2 && p[5] == 128
    }),
    ("a SET_DAQ_PTR into a list without ODTs", |s, p, a| {
        a == RANGE && p[0] == 0xE2 && s.list(p).map_or(false, |l| l.odts.is_empty())
    }),
    (
        "a SET_DAQ_PTR to the ODT behind its list's last",
        |s, p, a| {
            let odts = s.list(p).map_or(0, |list| list.odts.len());
            a == RANGE && p[0] == 0xE2 && odts > 0 && usize::from(p[4]) == odts
        },
    ),
    (
        "a SET_DAQ_PTR to an ODT behind its list's last, which the next list has",
        |s, p, a| {
            let odts = s.list(p).map_or(0, |list| list.odts.len());
            let place = s.first(word(p)) + usize::from(p[4]);
            a == RANGE && p[0] == 0xE2 && usize::from(p[4]) == odts && place < s.odts()
        },
    ),
    ("a SET_DAQ_PTR into an ODT without entries", |s, p, a| {
        a == RANGE && p[0] == 0xE2 && s.odt(p).map_or(false, Vec::is_empty)
    }),
    (
        "a SET_DAQ_PTR to the entry behind its ODT's last",
        |s, p, a| {
            let entries = s.odt(p).map_or(0, Vec::len);
            a == RANGE && p[0] == 0xE2 && entries > 0 && usize::from(p[5]) == entries
        },
    ),
    ("a WRITE_DAQ behind the only entry of an ODT", |s, p, a| {
        written_behind(s, p, a, 1)
    }),
    ("a WRITE_DAQ behind the last of 128 entries", |s, p, a| {
        written_behind(s, p, a, 128)
    }),
    ("a WRITE_DAQ where FREE_DAQ unset the pointer", |s, p, a| {
        a == SEQUENCE && p[0] == 0xE1 && s.pointer_freed
    }),
    (
        "a WRITE_DAQ to an entry before which others were allocated since it was pointed at",
        |s, p, a| a == [0xFF] && p[0] == 0xE1 && s.pointer_passed,
    ),
    ("an entry written of list 7", |s, p, a| {
        a == [0xFF] && p[0] == 0xE1 && s.pointer.map_or(false, |place| place[0] == 7)
    }),
    ("an entry written of ODT 15", |s, p, a| {
        a == [0xFF] && p[0] == 0xE1 && s.pointer.map_or(false, |place| place[1] == 15)
    }),
];

/// The number at byte 2: of a list, or of lists.
fn word(packet: &[u8]) -> usize {
    usize::from(packet[2]) + 256 * usize::from(packet[3])
}

/// The same packet without the high byte of that number.
fn low(packet: &[u8]) -> Vec<u8> {
    let mut low = packet.to_vec();
    low[3] = 0;
    low
}

fn names_list(packet: &[u8]) -> bool {
    matches!(packet[0], 0xE3 | 0xE2 | 0xE0 | 0xDE)
}

/// It names the list behind the last of some.
fn behind_lists(setup: &Setup, packet: &[u8]) -> bool {
    !setup.lists.is_empty() && word(packet) == setup.lists.len()
}

fn has_odts(setup: &Setup, packet: &[u8]) -> bool {
    setup
        .list(packet)
        .map_or(false, |list| !list.odts.is_empty())
}

fn has_entries(setup: &Setup, packet: &[u8]) -> bool {
    setup.odt(packet).map_or(false, |odt| !odt.is_empty())
}

/// A later ODT of the same list has some.
fn has_entries_behind(setup: &Setup, packet: &[u8]) -> bool {
    let behind = usize::from(packet[4]) + 1;
    let list = setup.list(packet);
    list.map_or(false, |l| l.odts.iter().skip(behind).any(|o| !o.is_empty()))
}

fn runs(setup: &Setup, packet: &[u8]) -> bool {
    setup.list(packet).map_or(false, |list| list.runs)
}

fn odts_after(setup: &Setup, packet: &[u8]) -> usize {
    setup.odts() + usize::from(packet[4])
}

fn entries_after(setup: &Setup, packet: &[u8]) -> usize {
    setup.entries() + usize::from(packet[5])
}

/// A WRITE_DAQ is refused after the last of so many entries was written.
fn written_behind(setup: &Setup, packet: &[u8], answer: &[u8], entries: usize) -> bool {
    packet[0] == 0xE1 && answer == SEQUENCE && setup.behind_last == Some(entries)
}
