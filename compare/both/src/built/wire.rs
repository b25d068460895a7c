//! Damage on the line: every cut, every flipped bit, escapes everywhere.

use crate::packet::{download, rising, short_download};
use crate::rig::Rig;
use crate::wire::{escaped, frame, ESC, FRAME, SYNC};

/// Packets whose frames hold no escape, some, and nothing else.
const PACKETS: [&[u8]; 4] = [
    &[0xFC],
    &[0xF4, 2, 0, 1, 0, 0, 0, 0],
    &[0xF0, 6, SYNC, ESC, SYNC, ESC, SYNC, ESC],
    &[0xFD, SYNC, ESC, 0, 1],
];

/// The same of the longest packets.
fn longest() -> [Vec<u8>; 2] {
    [
        short_download(56, 0, 0, &rising(56)),
        download(62, &[SYNC, ESC].repeat(31)),
    ]
}

pub fn run(rig: &mut Rig) {
    for (packet, ctr) in PACKETS.iter().zip([0, 1, SYNC, ESC]) {
        let whole = frame(ctr, packet);
        damaged(rig, &whole, 0..=whole.len());
    }
    for packet in longest() {
        let whole = frame(0, &packet);
        let end = whole.len();
        damaged(rig, &whole, (0..=4).chain([40, end - 1, end]));
    }
    every_value(rig);
    lengths(rig);
    rooms(rig);
}

/// Every kind of damage at each of these places.
fn damaged(rig: &mut Rig, whole: &[u8], places: impl Iterator<Item = usize> + Clone) {
    rig.begin(1, false);
    rig.open();
    for at in places.clone() {
        cut(rig, whole, at);
        inserted(rig, whole, at);
    }
    rig.begin(1, false);
    rig.open();
    for at in places.filter(|at| *at < whole.len()) {
        flipped(rig, whole, at);
    }
}

/// A good command after damage must be heard.
fn recover(rig: &mut Rig) {
    rig.drain();
    rig.ask(&[0xFC]);
}

fn cut(rig: &mut Rig, whole: &[u8], at: usize) {
    rig.wire(&whole[..at]);
    rig.wire(whole);
    rig.wire(&whole[at..]);
    recover(rig);
}

fn inserted(rig: &mut Rig, whole: &[u8], at: usize) {
    for extra in [0, 1, 2, SYNC, ESC, 0xFF] {
        rig.wire(&whole[..at]);
        rig.byte(extra);
        rig.wire(&whole[at..]);
        recover(rig);
    }
    for after in [0, 1, 2, SYNC, ESC, 0xFF] {
        rig.wire(&whole[..at]);
        rig.wire(&[ESC, after]);
        rig.wire(&whole[at..]);
        recover(rig);
    }
}

fn flipped(rig: &mut Rig, whole: &[u8], at: usize) {
    for bit in 0..8 {
        let mut damaged = whole.to_vec();
        damaged[at] ^= 1 << bit;
        rig.wire(&damaged);
        recover(rig);
    }
}

/// Every LEN, every byte after ESC, every checksum.
fn every_value(rig: &mut Rig) {
    rig.begin(1, false);
    rig.open();
    for value in 0..=255 {
        rig.wire(&[SYNC, value, 0, 0xFC, 0xFD]);
        recover(rig);
        rig.wire(&[SYNC, 1, ESC, value, 0xFC, 0x98]);
        recover(rig);
        rig.wire(&escaped(&[1, 0, 0xFC, value]));
        recover(rig);
        rig.wire(&escaped(&[value, 0, 0xFC, 0xFD]));
        recover(rig);
    }
}

/// LEN above 64 or 0 drops the message at once; longer ones are never stored.
fn lengths(rig: &mut Rig) {
    rig.begin(1, false);
    rig.open();
    for length in (0..=70).chain([127, 128, SYNC, ESC, 255]) {
        rig.wire(&frame(length, &vec![0xFC; usize::from(length)]));
        rig.drain();
    }
}

/// Slots of every room, with an answer waiting and without.
fn rooms(rig: &mut Rig) {
    rig.begin(1, false);
    for _ in 0..2 {
        for room in 0..FRAME + 8 {
            rig.slot(room);
        }
        for room in 0..FRAME + 8 {
            rig.send(&[0xFF, 0]);
            rig.slot(room);
            rig.slot(room);
        }
    }
    for event in [
        2,
        3,
        254,
        255,
        256,
        257,
        65_535,
        65_536,
        u32::MAX - 1,
        u32::MAX,
    ] {
        rig.event(event, 0);
    }
}
