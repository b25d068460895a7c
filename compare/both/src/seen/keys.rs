//! What a command covers by the keys before it, which count across sessions until the next power-up.

use super::named;
use crate::packet::{CALIBRATION, LISTS};

/// So many wrong ones, and it stays shut.
const MOST: usize = 3;

/// The cases, in the order of their names.
enum Case {
    AfterTwo,
    BadMode,
    BadResource,
    Short,
    NoSeed,
    RightBetween,
    BothResources,
    RefusedPowerUp,
    OpenAgain,
}

const NAMES: [&str; 9] = [
    "a seed given after two wrong keys",
    "a GET_SEED refused after three wrong keys, its mode bad too",
    "a GET_SEED refused after three wrong keys, its resource bad too",
    "a GET_SEED too short after three wrong keys",
    "an UNLOCK with no seed out after three wrong keys",
    "a GET_SEED refused after three wrong keys with a right one between",
    "a GET_SEED refused after three wrong keys of both resources",
    "a GET_SEED refused after three wrong keys and a refused power-up",
    "a seed given after three wrong keys and a power-up",
];

#[derive(Default)]
pub struct Keys {
    /// Wrong ones since power-up, where that is known.
    wrong: Option<usize>,
    /// The resource of the last seed, 0 where it is not known.
    resource: u8,
    /// The resources that a wrong key was for.
    resources: u8,
    /// A right key came between wrong ones.
    right_between: bool,
    /// A power-up was refused since it is shut.
    refused: bool,
    /// It was shut before the last power-up.
    open_again: bool,
    counts: [u64; NAMES.len()],
}

impl Keys {
    /// A slave that was never powered up.
    pub fn begin(&mut self) {
        self.wrong = None;
    }

    pub fn power_up(&mut self) {
        *self = Keys {
            wrong: Some(0),
            open_again: self.shut(),
            counts: self.counts,
            ..Keys::default()
        };
    }

    pub fn power_up_refused(&mut self) {
        self.refused = self.shut();
    }

    /// A command that nobody knows was answered: where locked is the answer, a key may have been wrong.
    pub fn unknown(&mut self, answer: &[u8]) {
        self.resource = 0;
        if answer == [0xFE, 0x25] {
            self.wrong = None;
        }
    }

    pub fn answered(&mut self, packet: &[u8], answer: &[u8]) {
        match (packet[0], answer) {
            (0xF8, [0xFF, 4, ..]) => self.seed_given(packet[2]),
            (0xF8, [0xFE, 0x25]) => self.seed_refused(packet),
            (0xF8, [0xFE, 0x21]) if self.shut() => self.count(Case::Short),
            (0xF7, [0xFE, 0x29]) if self.shut() => self.count(Case::NoSeed),
            (0xF7, [0xFF, ..]) => self.right_between |= matches!(self.wrong, Some(1 | 2)),
            (0xF7, [0xFE, 0x25]) => {
                self.wrong = self.wrong.map(|wrong| wrong + 1);
                self.resources |= self.resource;
            }
            _ => {}
        }
    }

    pub fn cells(&self) -> Vec<(String, u64)> {
        named(&NAMES, &self.counts)
    }

    fn count(&mut self, case: Case) {
        self.counts[case as usize] += 1;
    }

    fn shut(&self) -> bool {
        self.wrong == Some(MOST)
    }

    fn seed_given(&mut self, resource: u8) {
        self.resource = resource;
        if self.wrong == Some(MOST - 1) {
            self.count(Case::AfterTwo);
        }
        if self.open_again {
            self.count(Case::OpenAgain);
        }
    }

    /// Which tells that it is shut, also where the wrong keys are not known.
    fn seed_refused(&mut self, packet: &[u8]) {
        self.wrong = Some(MOST);
        match packet {
            [_, 0, CALIBRATION | LISTS, ..] => {}
            [_, 0, ..] => self.count(Case::BadResource),
            _ => self.count(Case::BadMode),
        }
        if self.right_between {
            self.count(Case::RightBetween);
        }
        if self.resources == CALIBRATION + LISTS {
            self.count(Case::BothResources);
        }
        if self.refused {
            self.count(Case::RefusedPowerUp);
        }
    }
}
