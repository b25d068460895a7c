//! Slices of received bytes: where each was cut, and what ended it.

use super::named;
use crate::step::Call;
use crate::wire::{ESC, SYNC};

/// What the last call was, as far as slices go.
#[derive(Clone, Copy, Default, PartialEq)]
enum Last {
    #[default]
    Other,
    Byte,
    /// A slice with bytes, of which none ended anything.
    Slice,
}

/// Where the line stands, as the numbers tell.
#[derive(Clone, Copy, Default)]
struct Place {
    inside: bool,
    escaped: bool,
}

impl Place {
    /// Behind this byte, which had this number.
    fn after(self, byte: u8, number: usize) -> Place {
        let inside = match number {
            0 => self.inside || byte == SYNC,
            number => number == 7,
        };
        let escaped = inside && byte == ESC && !self.escaped;
        Place { inside, escaped }
    }
}

/// A slice, and what came before it.
struct Slice<'a> {
    bytes: &'a [u8],
    number: usize,
    taken: usize,
    before: Place,
    after: Place,
    last: Last,
}

impl Slice<'_> {
    /// Bytes were taken, and none ended anything.
    fn quiet(&self) -> bool {
        self.number == 0 && self.taken > 0
    }

    /// A byte ended something.
    fn ended(&self) -> bool {
        (1..=7).contains(&self.number)
    }

    /// Frames that begin in it.
    fn frames(&self) -> usize {
        self.bytes.iter().filter(|byte| **byte == SYNC).count()
    }
}

type Case = (&'static str, fn(&Slice) -> bool);

const CASES: [Case; 23] = [
    ("empty, outside a frame", |s| {
        s.bytes.is_empty() && s.number == 0 && !s.before.inside
    }),
    ("empty, inside a frame", |s| {
        s.bytes.is_empty() && s.number == 0 && s.before.inside
    }),
    ("empty, between ESC and the byte behind it", |s| {
        s.bytes.is_empty() && s.number == 0 && s.before.escaped
    }),
    ("empty, without a state", |s| {
        s.bytes.is_empty() && s.number == 10
    }),
    ("with bytes, without a state", |s| {
        !s.bytes.is_empty() && s.number == 10
    }),
    ("of one byte that ends nothing", |s| {
        s.quiet() && s.bytes.len() == 1
    }),
    ("of one byte that ends something", |s| {
        s.ended() && s.bytes.len() == 1
    }),
    ("of noise alone", |s| {
        s.quiet() && s.frames() == 0 && !s.before.inside
    }),
    ("cut behind SYNC", |s| {
        s.quiet() && s.bytes.last() == Some(&SYNC)
    }),
    ("cut inside a frame", |s| {
        s.quiet() && s.after.inside && s.bytes.last() != Some(&SYNC)
    }),
    ("cut between ESC and the byte behind it", |s| {
        s.quiet() && s.after.escaped
    }),
    ("going on inside a frame", |s| {
        s.taken > 0 && s.before.inside
    }),
    ("going on between ESC and the byte behind it", |s| {
        s.taken > 0 && s.before.escaped
    }),
    ("going on behind a byte that came by itself", |s| {
        s.taken > 0 && s.before.inside && s.last == Last::Byte
    }),
    ("going on behind another", |s| {
        s.taken > 0 && s.before.inside && s.last == Last::Slice
    }),
    (
        "behind another that was cut before the byte that ends",
        |s| s.ended() && s.taken == 1 && s.last == Last::Slice,
    ),
    ("cut behind the byte that ends", |s| {
        s.ended() && s.taken == s.bytes.len()
    }),
    ("with one byte behind the one that ends", |s| {
        s.ended() && s.taken + 1 == s.bytes.len()
    }),
    ("of a whole frame alone", |s| {
        s.number == 1 && s.taken == s.bytes.len() && s.bytes[0] == SYNC && s.frames() == 1
    }),
    ("of several frames", |s| {
        s.ended() && s.number != 7 && s.taken < s.bytes.len() && s.frames() > 1
    }),
    ("of a frame's end and another's beginning", |s| {
        let behind = s.bytes.get(s.taken);
        s.ended() && s.number != 7 && s.before.inside && behind == Some(&SYNC)
    }),
    ("of noise and a frame", |s| {
        s.number == 1 && !s.before.inside && s.bytes[0] != SYNC
    }),
    ("longer than 256 bytes, ended behind them", |s| {
        s.ended() && s.taken > 256
    }),
];

/// Where in a slice the byte is that ends it; the only one is its first and its last.
const PLACES: [Case; 3] = [
    ("at its first byte", |s| s.taken == 1),
    ("inside", |s| 1 < s.taken && s.taken < s.bytes.len()),
    ("at its last byte", |s| s.taken == s.bytes.len()),
];

#[derive(Default)]
pub struct Slices {
    place: Place,
    last: Last,
    cases: [u64; CASES.len()],
    /// By number, from 1 on, then by the place of the byte that has it.
    ends: [[u64; PLACES.len()]; 7],
}

impl Slices {
    /// A call, its number, and how many bytes it took if it was a slice.
    pub fn call(&mut self, call: &Call, number: usize, taken: usize) {
        match call {
            Call::Byte(byte) if number < 8 => {
                self.place = self.place.after(*byte, number);
                self.last = Last::Byte;
            }
            Call::Slice(bytes) => self.slice(bytes, number, taken),
            Call::PowerUp(_) if number == 0 => {
                *self = Slices {
                    place: Place::default(),
                    last: Last::Other,
                    ..*self
                }
            }
            _ => self.last = Last::Other,
        }
    }

    fn slice(&mut self, bytes: &[u8], number: usize, taken: usize) {
        let mut after = self.place;
        for (at, byte) in bytes[..taken].iter().enumerate() {
            after = after.after(*byte, if at + 1 == taken { number } else { 0 });
        }
        let slice = Slice {
            bytes,
            number,
            taken,
            before: self.place,
            after,
            last: self.last,
        };
        self.count(&slice);
        self.last = if slice.quiet() {
            Last::Slice
        } else {
            Last::Other
        };
        self.place = after;
    }

    fn count(&mut self, slice: &Slice) {
        for (count, (_, is)) in self.cases.iter_mut().zip(CASES) {
            *count += u64::from(is(slice));
        }
        if slice.ended() {
            for (count, (_, is)) in self.ends[slice.number - 1].iter_mut().zip(PLACES) {
                *count += u64::from(is(slice));
            }
        }
    }

    pub fn cells(&self) -> Vec<(String, u64)> {
        named(&CASES.map(|(name, _)| name), &self.cases)
    }

    /// Each number at each place.
    pub fn ends(&self) -> Vec<(String, u64)> {
        let mut ends = Vec::new();
        for (number, counts) in (1..).zip(self.ends) {
            for ((place, _), count) in PLACES.iter().zip(counts) {
                ends.push((format!("{} {}", number, place), count));
            }
        }
        ends
    }
}
