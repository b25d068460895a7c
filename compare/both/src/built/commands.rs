//! Every command in every situation, cut to every length, each byte at its edges, two bytes wrong at once.

use crate::packet::{CALIBRATION, LISTS};
use crate::rig::Rig;
use crate::wire::LONGEST;

/// Packets that are done in an open session, those that allocate where it is their turn.
const GOOD: [&[u8]; 24] = [
    &[0xFF, 0],
    &[0xFE],
    &[0xFD],
    &[0xFC],
    &[0xF8, 0, 1],
    &[0xF7, 4, 0, 0, 0, 0],
    &[0xF6, 0, 0, 0, 0x10, 0, 0, 0],
    &[0xF5, 4],
    &[0xF4, 4, 0, 1, 0x20, 0, 0, 0],
    &[0xF3, 0, 0, 0, 0x10, 0, 0, 0],
    &[0xF0, 3, 0xAA, 0x9A, 0x9B],
    &[0xED, 3, 0, 0, 0x28, 0, 0, 0, 0xAA, 0x9A, 0x9B],
    &[0xE3, 0, 1, 0],
    &[0xE2, 0, 1, 0, 1, 2],
    &[0xE1, 0xFF, 2, 1, 0x20, 0, 0, 0],
    &[0xE0, 0x10, 1, 0, 1, 0, 1, 0],
    &[0xDE, 1, 1, 0],
    &[0xDD, 1],
    &[0xDA],
    &[0xD9],
    &[0xD6],
    &[0xD5, 0, 2, 0],
    &[0xD4, 0, 1, 0, 3],
    &[0xD3, 0, 1, 0, 2, 4],
];

/// The lists of a session that has some; the last ODT has no entries yet.
const TWO: [&[u8]; 2] = [&[1], &[2, 4, 0]];

/// Around every limit of a byte: modes, lists, sizes and entries, then counts.
const EDGES: [u8; 18] = [
    0, 1, 2, 3, 4, 5, 15, 16, 17, 56, 57, 62, 63, 64, 0x7F, 0x80, 0x9A, 0xFF,
];

/// Two bytes wrong at once show which is judged first.
const PAIRS: [(u8, u8); 4] = [(0, 2), (1, 0xFF), (0xFF, 1), (0xFF, 0xFF)];

#[derive(Clone, Copy)]
enum Situation {
    Locked,
    /// Both locks open, no lists, the address and the pointer unset.
    Unlocked,
    /// On the way to lists: nothing, then lists, then ODTs.
    Freed,
    Listed,
    Odts,
    /// The address at calibration bytes, the pointer at a stopped list.
    Set,
    /// The address at measured bytes, the pointer at a list that runs.
    Running,
    /// After three wrong keys.
    Shut,
}

pub fn run(rig: &mut Rig) {
    let situations = [
        Situation::Locked,
        Situation::Unlocked,
        Situation::Set,
        Situation::Running,
        Situation::Shut,
    ];
    for situation in situations {
        for good in GOOD {
            attempts(rig, situation, good);
        }
        other_codes(rig, situation);
    }
    for situation in [Situation::Freed, Situation::Listed, Situation::Odts] {
        for good in GOOD.iter().filter(|good| good[0] < 0xD9) {
            attempts(rig, situation, good);
        }
    }
}

fn attempts(rig: &mut Rig, situation: Situation, good: &[u8]) {
    rig.begin(1, false);
    prepare(rig, situation);
    one_command(rig, situation, good);
    two_wrong(rig, situation, good);
}

fn prepare(rig: &mut Rig, situation: Situation) {
    rig.connect();
    match situation {
        Situation::Locked => {
            rig.seed(CALIBRATION);
        }
        Situation::Unlocked => unlock(rig),
        Situation::Freed | Situation::Listed | Situation::Odts => {
            unlock(rig);
            allocate(rig, situation);
        }
        Situation::Set => {
            unlock(rig);
            rig.allocate(&TWO);
            rig.fill(1, &[2, 3], 0, 0);
            rig.set_mode(1, 0);
        }
        Situation::Running => {
            unlock(rig);
            rig.allocate(&TWO);
            rig.fill(1, &[5, 7], 1, 0);
            rig.set_mode(1, 0);
            rig.turn(1, 1);
            rig.turn(2, 0);
        }
        Situation::Shut => {
            for resource in [CALIBRATION, LISTS, CALIBRATION] {
                // None comes where it is shut already.
                if rig.seed(resource).is_some() {
                    rig.wrong_key(resource);
                    rig.connect();
                }
            }
        }
    }
    aim(rig, situation);
}

fn unlock(rig: &mut Rig) {
    rig.unlock(CALIBRATION);
    rig.unlock(LISTS);
}

/// The first steps to lists.
fn allocate(rig: &mut Rig, situation: Situation) {
    rig.free();
    if !matches!(situation, Situation::Freed) {
        rig.alloc_lists(2);
    }
    if let Situation::Odts = situation {
        rig.alloc_odts(1, 3);
    }
}

/// Sets address and pointer anew, since done commands move them.
fn aim(rig: &mut Rig, situation: Situation) {
    match situation {
        Situation::Set => {
            rig.set_mta(0, 0x20);
            rig.point(1, 1, 3);
        }
        Situation::Running => {
            rig.set_mta(1, 0x20);
            rig.point(1, 0, 0);
        }
        _ => {}
    }
}

fn one_command(rig: &mut Rig, situation: Situation, good: &[u8]) {
    for length in (1..=8.max(good.len() + 1)).chain([LONGEST]) {
        // Bytes past the command are ignored, whatever they are.
        for more in [0, 0xFF] {
            let mut packet = good.to_vec();
            packet.resize(length, more);
            attempt(rig, situation, &packet);
        }
    }
    for at in 1..good.len() {
        for value in EDGES {
            let mut packet = good.to_vec();
            packet[at] = value;
            attempt(rig, situation, &packet);
        }
    }
}

fn two_wrong(rig: &mut Rig, situation: Situation, good: &[u8]) {
    for second in 2..good.len() {
        for first in 1..second {
            for (one, other) in PAIRS {
                let mut packet = good.to_vec();
                packet[first] = one;
                packet[second] = other;
                attempt(rig, situation, &packet);
            }
        }
    }
}

fn other_codes(rig: &mut Rig, situation: Situation) {
    rig.begin(1, false);
    prepare(rig, situation);
    for code in 0..=255 {
        if GOOD.iter().all(|good| good[0] != code) {
            rig.ask(&[code]);
            rig.ask(&[code, 0, 1, 0, 0, 0, 1, 0]);
            if code % 16 == 0 {
                rig.ask(&[code; LONGEST]);
            }
        }
    }
}

/// One packet; then the situation is made again where the packet may have ended it.
fn attempt(rig: &mut Rig, situation: Situation, packet: &[u8]) {
    let answer = rig.ask(packet).unwrap_or_default();
    let refused = answer.starts_with(&[0xFE]);
    match packet[0] {
        0xF7 if answer == [0xFE, 0x25] => {
            // A wrong key: a third one would leave it shut, whatever the situation.
            let start = rig.dice.number();
            rig.power_up(start);
            prepare(rig, situation);
        }
        _ if refused => {}
        0xFF | 0xFE | 0xF7 | 0xDE | 0xDD => prepare(rig, situation),
        0xD3..=0xD6 => prepare(rig, situation),
        0xF6 | 0xF5 | 0xF4 | 0xF3 | 0xF0 | 0xED | 0xE2 | 0xE1 => aim(rig, situation),
        _ => {}
    }
    rig.event(0, 0x0102);
}
