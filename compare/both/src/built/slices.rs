//! Slices of received bytes: wires in which each number ends something, cut at every place.

use crate::packet::{download, rising, short_download};
use crate::rig::Rig;
use crate::wire::{frame, ESC, SYNC};

/// What a wire meets.
#[derive(Clone, Copy)]
enum Situation {
    /// A session, and no answer waits.
    Open,
    /// A session, and an answer waits.
    Waiting,
    Closed,
}

pub fn run(rig: &mut Rig) {
    for situation in [Situation::Open, Situation::Waiting, Situation::Closed] {
        rig.begin(1, false);
        rig.open();
        for wire in short() {
            for first in 0..=wire.len() {
                for second in first..=wire.len() {
                    cut(rig, situation, &wire, [first, second]);
                }
            }
        }
        for wire in long() {
            for place in 0..=wire.len() {
                cut(rig, situation, &wire, [place, place]);
            }
        }
    }
    bursts(rig);
}

/// Few bytes, and in all of them together each number but 2 and 6, which the situation brings.
fn short() -> Vec<Vec<u8>> {
    let synch = frame(0, &[0xFC]);
    vec![
        synch.clone(),
        [&[0x55, ESC, 0][..], &synch, &[0x55]].concat(),
        [&synch[..], &frame(SYNC, &[0xFD])].concat(),
        frame(ESC, &download(2, &[SYNC, ESC])),
        [&[SYNC, SYNC][..], &synch[1..]].concat(),
        [&synch[..3], &synch].concat(),
        [&[SYNC, 1, ESC][..], &synch].concat(),
        vec![SYNC, 0, SYNC, 65, SYNC, ESC, 0, SYNC, ESC, 1],
        vec![SYNC, ESC, 2, SYNC, 1, 0, ESC, ESC, SYNC],
        vec![SYNC, 1, 0, 0xFC, 0xFC, 0xFD, SYNC, 1, 0, 0xFC, ESC, 0],
        [&frame(1, &[0xFF, 0])[..], &synch].concat(),
    ]
}

/// The longest packets; more noise than a ring buffer holds; several frames, whole and damaged.
fn long() -> Vec<Vec<u8>> {
    let synch = frame(0, &[0xFC]);
    vec![
        frame(0, &short_download(56, 0, 0, &rising(56))),
        frame(0, &download(62, &[SYNC, ESC].repeat(31))),
        [&[0x55; 300][..], &synch].concat(),
        [&synch[..], &synch[..4], &synch, &[SYNC, 0], &synch].concat(),
    ]
}

/// The wire in three slices that end at these places and its end; then a good command, which must be heard.
fn cut(rig: &mut Rig, situation: Situation, wire: &[u8], [first, second]: [usize; 2]) {
    prepare(rig, situation);
    rig.slices(&wire[..first]);
    rig.slices(&wire[first..second]);
    rig.slices(&wire[second..]);
    rig.drain();
    rig.ask(&[0xFC]);
}

fn prepare(rig: &mut Rig, situation: Situation) {
    rig.drain();
    match situation {
        Situation::Open => {}
        Situation::Waiting => {
            rig.send(&[0xFD]);
        }
        Situation::Closed => {
            rig.ask(&[0xFE]);
        }
    }
}

/// Commands in one slice, answered one after another or not.
fn bursts(rig: &mut Rig) {
    let packets = [
        vec![0xFC],
        vec![0xF6, 0, 0, 0, 0x10, 0, 0, 0],
        download(6, &[SYNC, ESC, 0, 1, 0x55, 0xAA]),
        vec![0xF4, 6, 0, 0, 0x10, 0, 0, 0],
        vec![0xFF, 0],
    ];
    for answered in [true, false] {
        rig.begin(1, false);
        rig.open();
        rig.burst(&packets, answered);
        rig.drain();
        rig.ask(&[0xFD]);
    }
}
