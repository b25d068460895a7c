//! Three wrong keys since power-up, and it stays shut.

use crate::packet::{unlock_packet, CALIBRATION, LISTS};
use crate::rig::Rig;

/// GET_SEED cut, with each mode and resource that is refused, and good; UNLOCK short of a key.
const FORMS: [&[u8]; 14] = [
    &[0xF8],
    &[0xF8, 0],
    &[0xF8, 1],
    &[0xF8, 2],
    &[0xF8, 1, CALIBRATION],
    &[0xF8, 2, LISTS],
    &[0xF8, 0xFF, CALIBRATION],
    &[0xF8, 1, 0],
    &[0xF8, 0, 0],
    &[0xF8, 0, CALIBRATION + LISTS],
    &[0xF8, 0, CALIBRATION],
    &[0xF8, 0, LISTS],
    &[0xF7],
    &[0xF7, 3, 0, 0, 0],
];

pub fn run(rig: &mut Rig) {
    let [c, l] = [CALIBRATION, LISTS];
    for resources in [[c, c, c], [l, l, l], [c, l, c], [l, c, l]] {
        for right_keys in [false, true] {
            rig.begin(1, false);
            wrong(rig, resources, right_keys);
            shut(rig);
            rig.power_up(1);
            wrong(rig, resources, right_keys);
            shut(rig);
        }
    }
    other_refusals(rig);
    unread(rig);
}

/// The wrong keys; before each of them every form is answered as ever.
fn wrong(rig: &mut Rig, resources: [u8; 3], right_keys: bool) {
    for resource in resources {
        rig.connect();
        forms(rig);
        if right_keys {
            rig.open();
            forms(rig);
            // However the session ends.
            if resource == LISTS {
                rig.ask(&[0xFE]);
            }
        }
        rig.wrong_key(resource);
        rig.send(&[0xFD]);
    }
}

fn forms(rig: &mut Rig) {
    for packet in FORMS {
        rig.ask(packet);
    }
}

/// Nothing opens it but a power-up that is made.
fn shut(rig: &mut Rig) {
    for packet in [&[0xFF, 0][..], &[0xFE], &[0xFC]] {
        rig.connect();
        forms(rig);
        rig.ask(&unlock_packet(0));
        rig.ask(&[0xFD]);
        rig.ask(&[0xDA]);
        // What needs no key goes on.
        rig.set_mta(0, 0);
        rig.ask(&[0xF0, 1, 0x55]);
        rig.ask(&[0xF5, 1]);
        rig.ask(packet);
        rig.power_up_refused();
    }
}

/// An UNLOCK that is refused for anything but its key does not count.
fn other_refusals(rig: &mut Rig) {
    rig.begin(1, false);
    rig.connect();
    for resource in [CALIBRATION, LISTS] {
        for _ in 0..4 {
            rig.ask(&unlock_packet(0));
        }
        rig.seed(resource);
        for _ in 0..4 {
            rig.ask(&[0xF7]);
            rig.ask(&[0xF7, 3, 0, 0, 0]);
            rig.ask(&[0xF7, 5, 0, 0, 0, 0, 0]);
            rig.ask(&[0xF7, 4, 0, 0, 0]);
        }
        rig.unlock(resource);
    }
    rig.open();
}

/// A key that comes while an answer waits, or with no session, is not read and does not count.
fn unread(rig: &mut Rig) {
    rig.begin(1, false);
    for _ in 0..4 {
        rig.connect();
        rig.seed(LISTS);
        rig.send(&[0xFC]);
        rig.send(&unlock_packet(0));
        rig.drain();
        rig.ask(&[0xFE]);
        rig.send(&unlock_packet(0));
    }
    rig.open();
}
