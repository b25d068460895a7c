//! Lists that fit and do not, samples taken and missed, the turns of slots.

use crate::lent::LENGTHS;
use crate::packet::{rising, CALIBRATION, LISTS};
use crate::rig::Rig;
use crate::tool::FOUR;
use crate::wire::FRAME;

/// As many bytes as each ODT holds.
const FULL: [u8; 2] = [61, 63];
/// Four lists for few bytes.
const SMALL: [[u8; 2]; 4] = [[2, 2]; 4];

pub fn run(rig: &mut Rig) {
    sizes(
        rig,
        0,
        &[0, 1, 4, 5, 60, 61, 62, 63, 64],
        &[0, 1, 7, 62, 63, 64],
    );
    for list in 1..4 {
        sizes(rig, list, &[0, 5, 61, 62], &[0, 7, 63, 64]);
    }
    pointer(rig);
    entries(rig);
    cleared(rig);
    emptied(rig);
    counts(rig);
    selections(rig);
    selected_first(rig);
    turns(rig);
    shrunk(rig);
    endings(rig);
}

/// Few bytes in each ODT, and around as many as fit.
fn sizes(rig: &mut Rig, list: u8, firsts: &[u8], seconds: &[u8]) {
    for &first in firsts {
        rig.begin(1, false);
        rig.open_with(&FOUR);
        rig.measure(0, &rising(64));
        rig.measure(0, &[0x9A, 2, 3, 0x9B]);
        for &second in seconds {
            // Without a mode it never starts.
            rig.fill(list, &[first, second], 1, 0);
            rig.turn(1, list);
            rig.set_mode(list, first % 2);
            rig.turn(1, list);
            rig.event(u32::from(first % 2), 0x9B9A);
            rig.event(u32::from(first % 2), 1);
            rig.slot(FRAME);
            rig.turn(1, list);
            rig.ask(&[0xE3, 0, list, 0]);
            // The pointer stays where it was.
            rig.write_entry(1, 1, 0);
            rig.drain();
            rig.turn(0, list);
        }
    }
}

/// The pointer steps to the end of its ODT and not beyond.
fn pointer(rig: &mut Rig) {
    rig.begin(1, false);
    rig.open_with(&FOUR);
    for list in 0..4 {
        for odt in 0..2 {
            rig.point(list, odt, 0);
            for address in 0..17 {
                rig.write_entry(1, 1, address);
            }
            for entry in [15, 16, 17, 255] {
                rig.point(list, odt, entry);
                // A refused entry leaves it.
                rig.write_entry(5, 1, 0);
                rig.write_entry(1, 1, 0);
            }
        }
    }
}

/// Starts the list, and shows what it samples.
fn shown(rig: &mut Rig, list: u8) {
    rig.set_mode(list, 0);
    rig.turn(1, list);
    rig.event(0, 0x0201);
    rig.drain();
    rig.turn(0, list);
}

/// Sixteen entries of every size, some written over, the last ones first.
fn entries(rig: &mut Rig) {
    for list in 0..4 {
        rig.begin(1, false);
        rig.open_with(&FOUR);
        rig.measure(0, &rising(200));
        for odt in 0..2 {
            rig.point(list, odt, 0);
            for entry in 0..16 {
                rig.write_entry(entry as u8 % 5, 1, 7 * entry);
            }
        }
        shown(rig, list);
        for (odt, entry, size) in [(0, 4, 0), (1, 15, 0), (1, 0, 4), (0, 15, 4), (0, 0, 0)] {
            rig.point(list, odt, entry);
            rig.write_entry(size, 1, 150);
            shown(rig, list);
        }
        rig.ask(&[0xE3, 0, list, 0]);
        for entry in (0..16).rev() {
            rig.point(list, entry % 2, entry);
            rig.write_entry(1 + entry % 4, 1, u32::from(entry));
            shown(rig, list);
        }
    }
}

/// A cleared list has no entry in either ODT, no mode and no selection.
fn cleared(rig: &mut Rig) {
    for bytes in [[1, 0], [0, 1]] {
        rig.begin(1, false);
        rig.open_with(&SMALL);
        for list in 0..4 {
            rig.fill(list, &bytes, 1, 0);
            rig.set_mode(list, 0);
            rig.turn(2, list);
            rig.ask(&[0xE3, 0, list, 0]);
            rig.ask(&[0xDD, 1]);
            rig.set_mode(list, 0);
            rig.turn(1, list);
        }
    }
}

/// However a full list came to be empty, an entry that is written then stands alone.
fn emptied(rig: &mut Rig) {
    let ways: [&[u8]; 5] = [
        &[0xE3, 0, 2, 0],
        &[0xD6],
        &[0xFF, 0],
        &[0xFE],
        &[0xF7, 4, 0, 0, 0, 0],
    ];
    for way in 0..=ways.len() {
        for (entry, size) in [(0, 1), (1, 2), (8, 0), (15, 4)] {
            rig.begin(1, false);
            rig.measure(0, &rising(200));
            rig.connect();
            rig.unlock(LISTS);
            rig.seed(CALIBRATION);
            rig.allocate(&FOUR);
            rig.fill(2, &FULL, 1, 0);
            shown(rig, 2);
            match ways.get(way) {
                Some(packet) => {
                    rig.ask(packet);
                }
                None => rig.power_up(1),
            }
            match way {
                0 => {}
                1 => rig.allocate(&FOUR),
                _ => rig.open_with(&FOUR),
            }
            for odt in 0..2 {
                rig.point(2, odt, entry);
                rig.write_entry(size, 1, 100);
                rig.write_entry(1, 1, 120);
            }
            shown(rig, 2);
        }
    }
}

/// Every count of lists that sample and that miss.
fn counts(rig: &mut Rig) {
    rig.begin(1, false);
    rig.open_with(&[[2]; 8]);
    for list in 0..8 {
        rig.fill(list, &[1 + list], 1, 0);
        rig.set_mode(list, 1);
    }
    for running in 0..9 {
        rig.ask(&[0xDD, 0]);
        for list in 0..running {
            rig.turn(1, list);
        }
        for sent in 0..=running {
            rig.drain();
            rig.event(1, 7);
            for _ in 0..sent {
                rig.slot(FRAME);
            }
            rig.event(1, 8);
            rig.event(0, 9);
            rig.drain();
        }
    }
}

/// Every selection of lists, fit ones and unfit ones, with each mode of START_STOP_SYNCH.
fn selections(rig: &mut Rig) {
    for unfit in [false, true] {
        for mode in 0..4 {
            rig.begin(1, false);
            rig.open_with(&SMALL);
            for list in 0..4 {
                rig.fill(list, &[1, 1], 0, 0);
                if list < 3 || !unfit {
                    rig.set_mode(list, 0);
                }
            }
            for selected in 0..16 {
                rig.turn(1, selected % 4);
                for list in (0..4).filter(|l| selected >> l & 1 == 1) {
                    rig.turn(2, list);
                }
                rig.event(0, 1);
                rig.ask(&[0xDD, mode]);
                rig.event(0, 2);
                rig.drain();
                // What is still selected shows itself here.
                rig.ask(&[0xDD, 1]);
                rig.event(0, 3);
                rig.drain();
                rig.ask(&[0xDD, 0]);
            }
        }
    }
}

/// A list that is selected before it is stopped and set up stays so.
fn selected_first(rig: &mut Rig) {
    rig.begin(1, false);
    rig.open_with(&SMALL);
    for list in 0..4 {
        rig.turn(2, list);
        rig.turn(0, list);
        rig.point(list, 0, 0);
        rig.write_entry(1, 1, 0);
        rig.set_mode(list, 1);
        rig.ask(&[0xDD, 1]);
        rig.event(1, 7);
        rig.drain();
    }
}

/// Answers and lists in turn, after every list served last.
fn turns(rig: &mut Rig) {
    rig.begin(1, false);
    rig.open_with(&FOUR);
    for list in 0..4 {
        let bytes = if list == 1 { FULL } else { [5, 7] };
        rig.fill(list, &bytes, 1, u32::from(list));
        rig.set_mode(list, list % 2);
        rig.turn(1, list);
        // It runs, so its mode stays.
        rig.set_mode(list, 1 - list % 2);
    }
    for slots in 0..20 {
        rig.measure(0, &[slots, 0x9A, 0x9B, 3, 4, 5, 6, 7, 8, 9]);
        rig.event(0, 0x1234);
        rig.event(1, 0x9A9B);
        for slot in 0..slots {
            // Captured bytes must not change with the memory.
            rig.measure(2, &[slot, slot]);
            if slot % 3 > 0 {
                rig.send(&[0xFC]);
            }
            rig.slot(FRAME);
        }
    }
}

/// Samples of memories that no longer reach.
fn shrunk(rig: &mut Rig) {
    for extension in [0, 1] {
        rig.begin(1, false);
        rig.open_with(&FOUR);
        rig.measure(4088, &[1, 2, 3, 4, 5, 6, 7, 8]);
        rig.set_mta(0, 4090);
        rig.ask(&[0xF0, 6, 11, 12, 13, 14, 15, 16]);
        rig.fill(0, &[4, 4], extension, 4092);
        rig.fill(1, &[4, 4], extension, 0);
        rig.fill(2, &FULL, extension, 4033);
        for list in 0..3 {
            rig.set_mode(list, 0);
            rig.turn(1, list);
        }
        for cal in LENGTHS {
            for meas in LENGTHS {
                rig.lend(cal, meas);
                rig.event(0, 5);
                rig.drain();
            }
        }
    }
}

/// Everything that drops what waits: stop, clear, FREE_DAQ, CONNECT, DISCONNECT, a wrong key, power-up.
fn endings(rig: &mut Rig) {
    let ends: [&[u8]; 8] = [
        &[0xDE, 0, 2, 0],
        &[0xDD, 0],
        &[0xDD, 2],
        &[0xE3, 0, 2, 0],
        &[0xD6],
        &[0xFF, 0],
        &[0xFE],
        &[0xF7, 4, 0, 0, 0, 0],
    ];
    for end in ends {
        for sent in 0..3 {
            rig.begin(1, false);
            rig.connect();
            rig.unlock(LISTS);
            rig.seed(CALIBRATION);
            rig.allocate(&SMALL);
            rig.fill(2, &[5, 7], 1, 0);
            rig.set_mode(2, 0);
            rig.turn(2, 2);
            rig.turn(1, 2);
            rig.event(0, 1);
            for _ in 0..sent {
                rig.slot(FRAME);
            }
            rig.send(end);
            rig.event(0, 2);
            rig.drain();
            rig.ask(&[0xFD]);
            rig.turn(1, 2);
            rig.event(0, 3);
            rig.power_up(1);
            rig.event(0, 4);
            rig.drain();
        }
    }
}
