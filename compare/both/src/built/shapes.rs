//! Lists of many sizes, from one long one to eight short ones: what they sample and send, how they start and
//! stop.

use crate::packet::rising;
use crate::rig::Rig;
use crate::wire::FRAME;

pub fn run(rig: &mut Rig) {
    shapes(rig);
    bare(rig);
    long_odt(rig);
    rooms(rig);
    cleared(rig);
    together(rig);
    stopped(rig);
    rounds(rig);
}

/// Lists of these ODTs, with as many entries as these bytes take, all running: even ones on event 0, odd
/// ones on event 1.
pub fn run_lists<L: AsRef<[u8]>>(rig: &mut Rig, bytes: &[L]) {
    let entries = bytes.iter().map(|list| {
        let odts = list.as_ref().iter();
        odts.map(|bytes| (bytes + 3) / 4).collect::<Vec<u8>>()
    });
    rig.allocate(&entries.collect::<Vec<Vec<u8>>>());
    rig.ask(&[0xDA]);
    for (list, bytes) in (0..).zip(bytes) {
        rig.fill(list, bytes.as_ref(), 1, 3 * u32::from(list));
        rig.set_mode(list, list % 2);
        rig.turn(1, list);
    }
}

/// Events, and slots with and without answers between them, until each list has sent several samples.
fn played(rig: &mut Rig, packets: usize) {
    rig.measure(0, &rising(200));
    for round in 0..3 {
        rig.event(0, 0x1234);
        rig.event(1, 0x9A9B);
        // Captured bytes do not change with the memory.
        rig.measure(0, &[round, 0x9A, 0x9B, 0, 1]);
        for slot in 0..=packets * usize::from(round) {
            if slot % 3 > 0 {
                rig.send(&[0xFC]);
            }
            rig.slot(FRAME);
            rig.event(u32::from(round % 2), slot as u16);
        }
        rig.drain();
    }
}

/// One long list of each length, eight short ones, and what is between; some have ODTs without bytes.
fn shapes(rig: &mut Rig) {
    rig.begin(1, false);
    rig.open();
    for odts in 1..=16 {
        run_lists(rig, &[vec![1; odts]]);
        played(rig, odts);
    }
    run_lists(rig, &[[32; 16]]);
    played(rig, 16);
    run_lists(rig, &[[32, 32]; 8]);
    played(rig, 16);
    for lists in 1..=8 {
        run_lists(rig, &vec![vec![5; 16 / lists]; lists]);
        played(rig, 16);
    }
    for first in [1, 2, 9] {
        let mut lists = vec![vec![1; first]];
        lists.resize(8, vec![2]);
        run_lists(rig, &lists);
        played(rig, 16);
    }
    let ragged: [&[&[u8]]; 4] = [
        &[&[1], &[], &[0, 1], &[1, 0, 2], &[], &[0, 0, 0, 4]],
        &[&[0, 0, 0, 0, 0, 0, 0, 0, 0, 0, 0, 0, 0, 0, 0, 1]],
        &[&[61, 63], &[0, 63], &[61], &[61, 0, 0, 63]],
        &[&[3, 0, 3, 0, 3, 0, 3, 0], &[0, 3, 0, 3, 0, 3, 0, 3]],
    ];
    for lists in ragged {
        run_lists(rig, lists);
        played(rig, 8);
    }
}

/// A list without ODTs, one whose ODTs have no entries, one whose only entry has no bytes; then it has.
fn bare(rig: &mut Rig) {
    rig.begin(1, false);
    rig.open_with(&[&[][..], &[0, 0], &[1, 0]]);
    for list in 0..3 {
        for odt in 0..3 {
            rig.point(list, odt, 0);
            rig.write_entry(0, 1, 0);
            // The pointer is behind the only entry.
            rig.write_entry(1, 1, 0);
        }
        rig.turn(1, list);
        rig.set_mode(list, 0);
        rig.turn(1, list);
        rig.turn(2, list);
        rig.ask(&[0xDD, 1]);
        rig.event(0, 1);
        rig.drain();
    }
    rig.point(2, 0, 0);
    rig.write_entry(1, 1, 0);
    rig.turn(1, 2);
    rig.event(0, 2);
    rig.drain();
}

/// All entries in one ODT: its last one is number 127.
fn long_odt(rig: &mut Rig) {
    rig.begin(1, false);
    rig.open_with(&[[128]]);
    rig.measure(0, &rising(255));
    for entry in [0, 1, 127, 128, 255] {
        rig.point(0, 0, entry);
        rig.write_entry(1, 1, 200);
        rig.write_entry(0, 1, 0);
    }
    rig.set_mode(0, 0);
    rig.turn(1, 0);
    rig.event(0, 1);
    rig.drain();
    rig.turn(0, 0);
    // As many bytes as fit, in entries here and there; then one more.
    rig.point(0, 0, 0);
    for entry in 0..129 {
        rig.write_entry(u8::from(entry % 2 == 0 && entry > 4), 1, entry);
    }
    for _ in 0..2 {
        rig.turn(1, 0);
        rig.event(0, 2);
        rig.drain();
        rig.turn(0, 0);
        rig.point(0, 0, 127);
        rig.write_entry(1, 1, 250);
    }
    // 64 entries of four bytes are none modulo 256, and 128 are neither.
    rig.ask(&[0xE3, 0, 0, 0]);
    rig.set_mode(0, 0);
    rig.point(0, 0, 0);
    for entry in 0..128 {
        rig.write_entry(4, 1, entry);
        if entry >= 62 {
            rig.turn(1, 0);
        }
    }
}

/// Around as many bytes as fit in one ODT of sixteen, with few in the others.
fn rooms(rig: &mut Rig) {
    for odt in [0, 1, 2, 9, 15] {
        rig.begin(1, false);
        rig.measure(0, &rising(100));
        let (mut entries, mut bytes) = ([7; 16], [1; 16]);
        entries[odt] = 17;
        bytes[odt] = if odt == 0 { 61 } else { 63 };
        rig.open_with(&[entries]);
        rig.fill(0, &bytes, 1, 0);
        rig.set_mode(0, 0);
        // The sixteenth entry has one byte or three; it gets one more.
        for size in [bytes[odt] - 60, bytes[odt] - 59] {
            rig.point(0, odt as u8, 15);
            rig.write_entry(size, 1, 80);
            rig.turn(1, 0);
            rig.event(0, 7);
            rig.drain();
            rig.turn(0, 0);
            rig.turn(2, 0);
            rig.ask(&[0xDD, 1]);
            rig.event(0, 8);
            rig.drain();
            rig.turn(0, 0);
        }
    }
}

/// A long list that is cleared between lists that run: its entries are empty, theirs are not.
fn cleared(rig: &mut Rig) {
    rig.begin(1, false);
    rig.open();
    rig.measure(0, &rising(120));
    for long in [vec![6; 14], vec![6; 16]] {
        let (odts, list) = (long.len() as u8, u8::from(long.len() < 16));
        let lists = match list {
            0 => vec![long],
            _ => vec![vec![5], long, vec![7]],
        };
        run_lists(rig, &lists);
        rig.turn(0, list);
        rig.ask(&[0xE3, 0, list, 0]);
        rig.set_mode(list, 0);
        rig.turn(1, list);
        for odt in 0..odts {
            rig.point(list, odt, 1);
            rig.write_entry(1, 1, u32::from(odt));
        }
        rig.turn(1, list);
        rig.event(0, 5);
        rig.drain();
    }
}

/// Eight lists selected one by one and together, all fit or one not.
fn together(rig: &mut Rig) {
    for unfit in [8, 0, 7] {
        rig.begin(1, false);
        rig.open_with(&[[1]; 8]);
        for list in 0..8 {
            rig.fill(list, &[1], 1, u32::from(list));
            if list != unfit {
                rig.set_mode(list, list % 2);
            }
        }
        for selected in [0x01, 0x80, 0x18, 0x7F, 0xFE, 0xFF] {
            for mode in [1, 2] {
                // A start finds none running, a stop all that can.
                for list in 0..8 {
                    rig.turn(mode - 1, list);
                }
                for list in (0..8).filter(|list| selected >> list & 1 == 1) {
                    rig.turn(2, list);
                }
                rig.ask(&[0xDD, mode]);
                rig.ask(&[0xFD]);
                rig.event(0, 1);
                rig.event(1, 2);
                rig.drain();
            }
        }
        for list in 0..8 {
            rig.turn(1, list);
        }
        for list in 0..8 {
            rig.ask(&[0xDD, 0]);
            rig.turn(1, list);
            rig.ask(&[0xFD]);
        }
    }
}

/// Long lists stopped in each way with some of their packets sent: nothing is left of those when they
/// start again.
fn stopped(rig: &mut Rig) {
    let stops: [&[u8]; 3] = [&[0xDE, 0, 0, 0], &[0xDD, 0], &[0xDD, 2]];
    rig.begin(1, false);
    rig.open();
    rig.measure(0, &rising(20));
    for odts in [1, 2, 15, 16] {
        run_lists(rig, &[vec![1; odts]]);
        for sent in [0, 1, odts - 1] {
            for stop in stops {
                rig.turn(2, 0);
                rig.event(0, 1);
                for _ in 0..sent {
                    rig.slot(FRAME);
                }
                rig.send(stop);
                rig.drain();
                rig.turn(1, 0);
                rig.drain();
                rig.event(0, 2);
                rig.drain();
            }
        }
    }
}

/// The round begins at list 0 after a FREE_DAQ, whichever list was served last, and whether an answer was
/// sent last or not.
fn rounds(rig: &mut Rig) {
    rig.begin(1, false);
    rig.open();
    for lists in 1..=8 {
        for last in 0..lists.min(3) {
            run_lists(rig, &vec![[1, 1]; lists]);
            rig.event(0, 1);
            rig.event(1, 1);
            for _ in 0..=last {
                rig.slot(FRAME);
            }
            run_lists(rig, &vec![[1]; 9 - lists]);
            rig.event(0, 2);
            rig.event(1, 2);
            for slot in 0..20 {
                if slot % 4 == last {
                    rig.send(&[0xFC]);
                }
                rig.slot(FRAME);
            }
        }
    }
}
