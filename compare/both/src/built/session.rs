//! Sessions, seeds and keys.

use crate::packet::{key, unlock_packet, CALIBRATION, LISTS};
use crate::rig::Rig;

/// Among these are the default's own number, and three whose first seeds, FFFFFFFF, FFFF2FA2 and
/// FFFF2600, are the last and the first for which a key's addition wraps.
const STARTS: [u32; 9] = [
    0,
    1,
    0x2545_F491,
    0x7FFF_FFFF,
    0x8000_0000,
    0xFFFF_FFFF,
    0x5E6C_FCE7,
    0xDA7C_7948,
    0x77BB_C1C1,
];

pub fn run(rig: &mut Rig) {
    for start in STARTS {
        right_keys(rig, start);
        wrong_keys(rig, start);
    }
    for resource in [CALIBRATION, LISTS] {
        other_open(rig, resource);
        long_key(rig, resource);
        renewed_seed(rig, resource);
    }
    renewed_lists(rig);
    anew(rig);
    without_session(rig);
    counter(rig);
}

fn status(rig: &mut Rig) {
    rig.ask(&[0xFD]);
    rig.ask(&[0xDA]);
    rig.ask(&[0xD9]);
    rig.ask(&[0xF0, 1, 0x55]);
}

fn right_keys(rig: &mut Rig, start: u32) {
    for resources in [[CALIBRATION, LISTS], [LISTS, CALIBRATION]] {
        rig.begin(start, false);
        rig.connect();
        rig.set_mta(0, 0);
        for resource in resources {
            rig.unlock(resource);
            status(rig);
            // Unlocked already: a seed of no bytes, and no seed is out.
            rig.ask(&[0xF8, 0, resource]);
            rig.ask(&unlock_packet(0));
        }
        rig.connect();
        status(rig);
        rig.power_up(start);
        status(rig);
    }
}

fn wrong_keys(rig: &mut Rig, start: u32) {
    rig.begin(start, false);
    for resource in [CALIBRATION, LISTS] {
        for bit in 0..33 {
            // After three wrong keys no seed comes before the next power-up.
            if bit % 3 == 0 {
                rig.power_up(start);
            }
            rig.connect();
            // The first seed is replaced, so that its key is wrong too.
            let first = rig.seed(resource).unwrap_or(0);
            let other = CALIBRATION + LISTS - resource;
            let seed = rig.seed(resource).unwrap_or(0);
            rig.ask(&[0xF7, 3, 0, 0, 0, 0]);
            rig.ask(&[0xF7, 4, 0, 0, 0]);
            let wrong = match bit {
                32 if start % 2 == 0 => key(resource, first),
                32 => key(other, seed),
                _ => key(resource, seed) ^ 1 << bit,
            };
            rig.ask(&unlock_packet(wrong));
            rig.send(&[0xFD]);
        }
        // An unlocked resource is lost with the session that a wrong key ends.
        rig.power_up(start);
        rig.open();
        rig.seed(resource);
        rig.connect();
        rig.unlock(resource);
        rig.seed(CALIBRATION + LISTS - resource);
        rig.ask(&unlock_packet(0));
        rig.connect();
        status(rig);
    }
}

/// Asking for a seed of an open resource leaves the other's seed good.
fn other_open(rig: &mut Rig, resource: u8) {
    rig.begin(1, false);
    rig.connect();
    rig.unlock(CALIBRATION + LISTS - resource);
    let seed = rig.seed(resource).unwrap_or(0);
    rig.ask(&[0xF8, 0, CALIBRATION + LISTS - resource]);
    rig.ask(&unlock_packet(key(resource, seed)));
    status(rig);
}

/// A key is the four bytes after its length, whatever follows them.
fn long_key(rig: &mut Rig, resource: u8) {
    for length in [7, 8, 64] {
        rig.begin(1, false);
        rig.connect();
        let seed = rig.seed(resource).unwrap_or(0);
        let mut packet = unlock_packet(key(resource, seed));
        packet.resize(length, 0x5A);
        rig.ask(&packet);
        status(rig);
    }
}

/// A renewal forgets the seed that is out.
fn renewed_seed(rig: &mut Rig, resource: u8) {
    rig.begin(1, false);
    rig.connect();
    let seed = rig.seed(resource).unwrap_or(0);
    rig.connect();
    rig.ask(&unlock_packet(key(resource, seed)));
    status(rig);
}

/// A renewal, and FREE_DAQ, forget mode and entries: a list that gets one of them again lacks the other.
fn renewed_lists(rig: &mut Rig) {
    let lists = [[1, 1]; 4];
    for (mode_alone, freed) in [(true, false), (false, false), (true, true), (false, true)] {
        rig.begin(1, false);
        for list in 0..4 {
            rig.open_with(&lists);
            rig.fill(list, &[2, 3], 1, 0);
            rig.set_mode(list, 1);
            if freed {
                rig.allocate(&lists);
            } else {
                rig.open_with(&lists);
            }
            if mode_alone {
                rig.set_mode(list, 1);
            } else {
                rig.point(list, 0, 0);
                rig.write_entry(1, 1, 0);
            }
            rig.turn(1, list);
            rig.event(1, 7);
            rig.drain();
        }
    }
}

/// However a session ends, the next has no address, no pointer and no selection, also where its lists
/// are like those before.
fn anew(rig: &mut Rig) {
    let ends: [&[u8]; 3] = [&[0xFF, 0], &[0xFE], &[0xF7, 4, 0, 0, 0, 0]];
    for end in ends {
        rig.begin(1, false);
        rig.connect();
        rig.unlock(LISTS);
        rig.seed(CALIBRATION);
        rig.allocate(&[[1], [1]]);
        rig.turn(2, 1);
        rig.point(1, 0, 0);
        rig.set_mta(0, 0);
        rig.ask(end);
        rig.open();
        rig.ask(&[0xF5, 1]);
        rig.write_entry(1, 1, 0);
        rig.ask(&[0xDD, 1]);
        rig.allocate(&[[1], [1]]);
        rig.write_entry(1, 1, 0);
        rig.ask(&[0xDD, 1]);
    }
}

/// Without a session only a good CONNECT is heard.
fn without_session(rig: &mut Rig) {
    rig.begin(1, false);
    for code in 0..=255 {
        for packet in [&[code][..], &[code, 1], &[code, 4, 0, 0, 0, 0, 0, 0]] {
            rig.send(packet);
        }
    }
    rig.send(&[0xFF, 0]);
    // An answer waits: dropped unread, even a CONNECT and with the session's end behind it.
    for packet in [&[0xFF, 0][..], &[0xFE], &[0x00]] {
        rig.send(packet);
    }
    rig.drain();
    rig.send(&[0xFE]);
    for packet in [&[0xFD][..], &[0xFF, 0]] {
        rig.send(packet);
    }
    rig.drain();
    rig.send(&[0xFF, 0, 1, 2, 3, 4, 5, 6]);
    rig.drain();
}

/// Every CTR with answers of several lengths and sums.
fn counter(rig: &mut Rig) {
    rig.begin(1, false);
    rig.connect();
    rig.measure(0, &[0x9A, 0x9B].repeat(33));
    let lengths = [1, 2, 3, 7, 8, 62, 63];
    for count in 0..600 {
        let length = lengths[count % 7];
        rig.ask(&[0xF4, length, 0, 1, (count % 3) as u8, 0, 0, 0]);
        // One more at times, so that each CTR meets each length.
        if count % 7 == 6 {
            rig.ask(&[0xFC]);
        }
    }
}
