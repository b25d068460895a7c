//! FREE_DAQ and the three that allocate: in every order, up to the pool's limits, while lists run; and what
//! they leave.

use super::shapes::run_lists;
use crate::packet::{alloc_entries, alloc_lists, alloc_odts, key, rising, unlock_packet};
use crate::packet::{CALIBRATION, LISTS};
use crate::rig::Rig;
use crate::wire::FRAME;

pub fn run(rig: &mut Rig) {
    for stage in 0..=STEPS.len() {
        orders(rig, stage);
    }
    odts_left(rig);
    entries_left(rig);
    first_numbers(rig);
    for other in 0..3 {
        any_order(rig, other);
    }
    for count in [1, 20, 64, 100] {
        before_all(rig, count);
    }
    freed(rig);
    kept(rig);
    ended(rig);
}

/// The steps to three lists, of which list 1 runs with entries in the second of its ODTs alone.
const STEPS: [&[&[u8]]; 5] = [
    &[&[0xD6]],
    &[&[0xD5, 0, 3, 0]],
    &[&[0xD4, 0, 1, 0, 2]],
    &[&[0xD3, 0, 1, 0, 1, 4]],
    &[
        &[0xE2, 0, 1, 0, 1, 3],
        &[0xE1, 0xFF, 1, 1, 0, 0, 0, 0],
        &[0xE0, 0x10, 1, 0, 0, 0, 1, 0],
        &[0xDE, 1, 1, 0],
    ],
];

/// A session that has come so far.
fn reach(rig: &mut Rig, stage: usize) {
    rig.connect();
    rig.unlock(LISTS);
    for packet in STEPS[..stage].iter().flat_map(|step| step.iter()) {
        rig.ask(packet);
    }
}

/// Each of the four with every number at its limits, when so much was done before.
fn orders(rig: &mut Rig, stage: usize) {
    rig.begin(1, false);
    reach(rig, stage);
    for packet in forms() {
        if rig.ask(&packet) == Some(vec![0xFF]) {
            // What it led to shows here.
            rig.ask(&[0xDA]);
            rig.turn(2, 2);
            reach(rig, stage);
        }
        rig.event(0, 5);
    }
}

fn forms() -> Vec<Vec<u8>> {
    let mut forms = vec![vec![0xD6]];
    for count in [0, 1, 8, 9, 255, 256, 257, 0x0108, 65_535] {
        forms.push(alloc_lists(count));
    }
    for list in [0, 1, 2, 3, 256, 257, 65_535] {
        // Two are taken, or none.
        for count in [0, 1, 14, 15, 16, 17, 254, 255] {
            forms.push(alloc_odts(list, count));
        }
    }
    for list in [0, 1, 2, 3, 257] {
        for odt in [0, 1, 2, 255] {
            // Four are taken, or none.
            for count in [0, 1, 124, 125, 128, 129, 252, 255] {
                forms.push(alloc_entries(list, odt, count));
            }
        }
    }
    forms
}

/// All sixteen ODTs in several parts, then one more; after FREE_DAQ all are there again.
fn odts_left(rig: &mut Rig) {
    rig.begin(1, false);
    rig.open();
    let parts: [&[u8]; 7] = [
        &[16],
        &[1, 15],
        &[15, 1],
        &[8, 8],
        &[3, 5, 7, 1],
        &[2, 2, 2, 2, 2, 2, 4],
        &[2; 8],
    ];
    for counts in parts {
        rig.free();
        rig.alloc_lists(8.min(counts.len() as u16 + 1));
        let mut left = 16;
        for (list, count) in (0..).zip(counts) {
            rig.alloc_odts(list, left + 1);
            // With those taken a small number modulo 256.
            rig.alloc_odts(list, 255);
            rig.alloc_odts(list, *count);
            left -= count;
        }
        for count in [0, 1, 16, 255] {
            rig.alloc_odts(counts.len() as u16, count);
        }
        rig.ask(&[0xDA]);
    }
}

/// The same of all 128 entries.
fn entries_left(rig: &mut Rig) {
    rig.begin(1, false);
    rig.open();
    let parts: [&[u8]; 7] = [
        &[128],
        &[1, 127],
        &[127, 1],
        &[64, 64],
        &[100, 27, 1],
        &[16; 8],
        &[8; 16],
    ];
    for counts in parts {
        rig.free();
        rig.alloc_lists(2);
        rig.alloc_odts(1, 8);
        rig.alloc_odts(0, 8);
        let places = (0..2).flat_map(|list| (0..8).map(move |odt| (list, odt)));
        let mut places = places.collect::<Vec<(u16, u8)>>().into_iter();
        let mut left = 128;
        for (count, (list, odt)) in counts.iter().zip(&mut places) {
            rig.alloc_entries(list, odt, left + 1);
            rig.alloc_entries(list, odt, 255);
            rig.alloc_entries(list, odt, *count);
            left -= count;
        }
        let (list, odt) = places.next().unwrap_or((1, 7));
        for count in [0, 1, 128, 255] {
            rig.alloc_entries(list, odt, count);
        }
    }
}

/// What START_STOP_DAQ_LIST tells of each list while ODTs come list by list, in several orders.
fn first_numbers(rig: &mut Rig) {
    rig.begin(1, false);
    rig.open();
    let counts: [[u8; 8]; 5] = [
        [2; 8],
        [1, 0, 3, 0, 5, 0, 7, 0],
        [16, 0, 0, 0, 0, 0, 0, 0],
        [0, 0, 0, 0, 0, 0, 0, 16],
        [9, 1, 1, 1, 1, 1, 1, 1],
    ];
    for counts in counts {
        for order in [
            [0, 1, 2, 3, 4, 5, 6, 7],
            [7, 6, 5, 4, 3, 2, 1, 0],
            [4, 1, 6, 3, 0, 7, 2, 5],
        ] {
            rig.free();
            rig.alloc_lists(8);
            for list in order.iter().filter(|list| counts[**list] > 0) {
                rig.alloc_odts(*list as u16, counts[*list]);
                for told in 0..8 {
                    rig.turn(2, told);
                }
            }
        }
    }
}

/// Entries for the ODTs of two lists in several orders, while the third list runs or stands.
fn any_order(rig: &mut Rig, other: u16) {
    let orders = [[0, 1, 2, 3], [3, 2, 1, 0], [2, 0, 3, 1], [1, 3, 0, 2]];
    for (order, runs) in orders
        .iter()
        .flat_map(|order| [(order, true), (order, false)])
    {
        rig.begin(1, false);
        rig.open();
        rig.measure(0, &rising(120));
        rig.free();
        rig.alloc_lists(3);
        for list in [2, 0, 1] {
            rig.alloc_odts(list, 2);
        }
        rig.alloc_entries(other, 1, 3);
        rig.alloc_entries(other, 0, 2);
        rig.fill(other as u8, &[5, 9], 1, 20);
        rig.set_mode(other as u8, 0);
        rig.turn(u8::from(runs), other as u8);
        rig.point(other as u8, 1, 1);
        let lists: Vec<u16> = (0..3).filter(|list| *list != other).collect();
        for &which in order {
            rig.event(0, 1);
            // More than is left, then few.
            rig.alloc_entries(lists[which / 2], which as u8 % 2, 124);
            rig.alloc_entries(lists[which / 2], which as u8 % 2, 3 + which as u8);
            rig.event(0, 2);
            rig.drain();
            rig.alloc_entries(other, 0, 1);
        }
        told_apart(rig, other as u8, &lists);
    }
}

/// The entry that is still pointed at is written, then those of the other lists; all of them sample.
fn told_apart(rig: &mut Rig, other: u8, lists: &[u16]) {
    rig.write_entry(2, 1, 100);
    rig.turn(0, other);
    rig.write_entry(2, 1, 110);
    rig.turn(1, other);
    rig.event(0, 3);
    rig.drain();
    for list in lists {
        let list = *list as u8;
        rig.fill(list, &[9, 11], 1, 40 + 20 * u32::from(list));
        rig.set_mode(list, 0);
        rig.turn(1, list);
        rig.event(0, 4);
        rig.drain();
    }
}

/// So many entries before all others, of which each has a byte of its own in a list that runs.
fn before_all(rig: &mut Rig, count: u8) {
    rig.begin(1, false);
    rig.measure(0, &rising(200));
    let others = 128 - count;
    let odts = [
        others.min(61),
        others.saturating_sub(61).min(63),
        others.saturating_sub(124),
    ];
    rig.open_with(&[&[0][..], &odts]);
    let mut address = 0;
    for (odt, entries) in (0..).zip(odts) {
        rig.point(1, odt, 0);
        for _ in 0..entries {
            rig.write_entry(1, 1, address);
            address += 1;
        }
    }
    rig.set_mode(1, 0);
    rig.turn(1, 1);
    rig.event(0, 1);
    rig.drain();
    rig.alloc_entries(0, 0, count);
    rig.event(0, 2);
    rig.drain();
    // The first of them has nothing of those that were there.
    rig.point(0, 0, count - 1);
    rig.write_entry(1, 1, 190);
    rig.set_mode(0, 0);
    rig.turn(1, 0);
    rig.event(0, 3);
    rig.drain();
}

/// FREE_DAQ with so many packets of running lists sent, and then lists of the same or of other sizes.
fn freed(rig: &mut Rig) {
    let eight: [&[u8]; 8] = [&[1, 2]; 8];
    let lists: [&[&[u8]]; 3] = [&eight, &[&[1; 16]], &[&[5, 7], &[1], &[0, 3]]];
    for before in lists {
        for after in lists {
            for sent in [0, 1, 3, 16] {
                rig.begin(1, false);
                rig.open();
                rig.measure(0, &rising(60));
                run_lists(rig, before);
                rig.turn(2, 0);
                rig.point(0, 0, 0);
                rig.event(0, 5);
                rig.event(1, 6);
                for _ in 0..sent {
                    rig.slot(FRAME);
                }
                rig.send(&[0xD6]);
                rig.event(0, 7);
                rig.drain();
                rig.write_entry(1, 1, 0);
                rig.ask(&[0xFD]);
                again(rig, after);
            }
        }
    }
}

/// New lists have nothing of those before; then they run.
fn again(rig: &mut Rig, lists: &[&[u8]]) {
    rig.allocate(lists);
    rig.ask(&[0xDD, 1]);
    rig.turn(1, 0);
    rig.event(0, 8);
    rig.ask(&[0xFD]);
    rig.drain();
    run_lists(rig, lists);
    rig.event(0, 9);
    rig.event(1, 10);
    rig.drain();
}

/// Address and seed outlive a FREE_DAQ.
fn kept(rig: &mut Rig) {
    rig.begin(1, false);
    rig.connect();
    rig.unlock(LISTS);
    rig.measure(0, &rising(20));
    rig.set_mta(1, 5);
    rig.free();
    rig.ask(&[0xF5, 3]);
    rig.free();
    rig.ask(&[0xF5, 3]);
    let seed = rig.seed(CALIBRATION).unwrap_or(0);
    rig.free();
    rig.ask(&unlock_packet(key(CALIBRATION, seed)));
    rig.ask(&[0xFD]);
}

/// However a session ends, the next has no lists, and none can be allocated before a FREE_DAQ.
fn ended(rig: &mut Rig) {
    let ends: [&[u8]; 4] = [&[0xFF, 0], &[0xFE], &[0xF7, 4, 0, 0, 0, 0], &[]];
    for end in ends {
        for stage in 0..=STEPS.len() {
            rig.begin(1, false);
            reach(rig, stage);
            rig.event(0, 1);
            rig.seed(CALIBRATION);
            if end.is_empty() {
                rig.power_up(1);
            } else {
                rig.ask(end);
            }
            rig.event(0, 2);
            rig.drain();
            reach(rig, 0);
            rig.ask(&[0xDA]);
            for packet in STEPS[1..].iter().flat_map(|step| step.iter()) {
                rig.ask(packet);
            }
            run_lists(rig, &[[1, 2], [3, 4]]);
            rig.event(0, 3);
            rig.drain();
        }
    }
}
