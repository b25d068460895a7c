//! Times of several runs, taken in turn.

use crate::master::Load;
use crate::subject::{Memories, Subject, ROOM};
use std::ops::Range;
use std::time::Instant;

/// The middle one of these times, in nanoseconds.
pub fn median(times: &mut [f64]) -> f64 {
    times.sort_by(f64::total_cmp);
    times[times.len() / 2]
}

/// How a host hands the bytes of a load to a slave.
pub trait Way {
    /// Where a slot comes.
    fn slots(load: &Load) -> &[usize];
    /// The loop that is timed: the bytes up to these slots. The sum of all that the calls returned.
    fn play<S: Subject>(load: &Load, part: Range<usize>, slave: &mut S, m: &mut Memories) -> u64;
}

/// One by one.
pub struct Bytes;
/// What has come since, as a ring buffer holds it, going on behind what was taken.
pub struct Slices;

/// What the ring buffer of a host holds.
pub const RING: usize = 256;

/// A slave on its way through a load.
pub struct Run<S: Subject> {
    slave: S,
    memories: Memories,
    /// The sum of all that the calls returned.
    pub sum: u64,
}

impl<S: Subject> Run<S> {
    pub fn new() -> Run<S> {
        Run {
            slave: S::power_up(1),
            memories: Memories::new(),
            sum: 0,
        }
    }

    /// Goes on through the bytes up to these slots, and gives the nanoseconds that took.
    pub fn go<W: Way>(&mut self, load: &Load, part: Range<usize>) -> f64 {
        let begin = Instant::now();
        self.sum += W::play(load, part, &mut self.slave, &mut self.memories);
        begin.elapsed().as_nanos() as f64
    }
}

/// The place behind the slot before this one.
fn begin(slots: &[usize], slot: usize) -> usize {
    slot.checked_sub(1).map_or(0, |before| slots[before])
}

impl Way for Bytes {
    fn slots(load: &Load) -> &[usize] {
        &load.slots
    }

    #[inline(never)]
    fn play<S: Subject>(load: &Load, part: Range<usize>, slave: &mut S, m: &mut Memories) -> u64 {
        let mut from = begin(&load.slots, part.start);
        let (mut out, mut sum) = ([0; ROOM], 0);
        for to in &load.slots[part] {
            for byte in &load.bytes[from..*to] {
                sum += u64::from(slave.byte(m, *byte));
            }
            sum += u64::from(slave.slot(&mut out));
            from = *to;
        }
        sum
    }
}

impl Way for Slices {
    /// A host has a slot only where an answer waits.
    fn slots(load: &Load) -> &[usize] {
        &load.answers
    }

    #[inline(never)]
    fn play<S: Subject>(load: &Load, part: Range<usize>, slave: &mut S, m: &mut Memories) -> u64 {
        let (mut at, end) = (
            begin(&load.answers, part.start),
            begin(&load.answers, part.end),
        );
        let mut host = Host {
            slots: &load.answers[part],
            sum: 0,
        };
        while at < end {
            let ring = &load.bytes[at..end.min(at + RING)];
            host.hand(slave, m, at, ring);
            at += ring.len();
        }
        host.sum
    }
}

/// A host with a ring buffer, and the places of the slots to come.
pub struct Host<'a> {
    pub slots: &'a [usize],
    pub sum: u64,
}

impl Host<'_> {
    /// All that the ring holds, which begins at this place.
    #[inline(always)]
    pub fn hand<S: Subject>(&mut self, slave: &mut S, m: &mut Memories, at: usize, ring: &[u8]) {
        let (mut out, mut taken) = ([0; ROOM], 0);
        while taken < ring.len() {
            let (number, count) = slave.slice(m, &ring[taken..]);
            taken += count;
            self.sum += u64::from(number);
            if self.slots.first() == Some(&(at + taken)) {
                self.slots = &self.slots[1..];
                self.sum += u64::from(slave.slot(&mut out));
            }
        }
    }
}

/// The number of each byte and the frames that slots sent: what must be the same for every slave.
pub type Trace = (Vec<u32>, Vec<Vec<u8>>);

pub fn trace<S: Subject>(load: &Load) -> Trace {
    let (mut slave, mut memories) = (S::power_up(1), Memories::new());
    let (mut numbers, mut frames, mut from) = (Vec::new(), Vec::new(), 0);
    for to in &load.slots {
        for byte in &load.bytes[from..*to] {
            numbers.push(S::number(slave.byte(&mut memories, *byte)));
        }
        frames.extend(sent(&mut slave));
        from = *to;
    }
    (numbers, frames)
}

/// The same by slices.
pub fn trace_by_slices<S: Subject>(load: &Load) -> Trace {
    let (mut slave, mut memories) = (S::power_up(1), Memories::new());
    let (mut numbers, mut frames) = (Vec::new(), Vec::new());
    let mut slots = load.answers.iter().peekable();
    for ring in load.bytes.chunks(RING) {
        let mut rest = ring;
        while !rest.is_empty() {
            let (number, taken) = slave.slice(&mut memories, rest);
            rest = &rest[taken..];
            numbers.resize(numbers.len() + taken - 1, 0);
            numbers.push(number);
            if slots.next_if_eq(&&numbers.len()).is_some() {
                frames.extend(sent(&mut slave));
            }
        }
    }
    (numbers, frames)
}

/// The frame of a slot, where it has one.
fn sent<S: Subject>(slave: &mut S) -> Option<Vec<u8>> {
    let mut out = [0; ROOM];
    let size = slave.slot(&mut out) as usize;
    (size > 0).then(|| out[..size].to_vec())
}

/// What one call takes, in nanoseconds. Slaves in the same state are called one after another: a
/// single call is too short for the clock.
pub fn calls<S: Subject>(
    slaves: &mut [S],
    memories: &mut Memories,
    call: &impl Fn(&mut S, &mut Memories) -> u32,
) -> f64 {
    let mut sum = 0;
    let before = Instant::now();
    let begin = Instant::now();
    for slave in slaves.iter_mut() {
        sum += call(slave, memories);
    }
    let time = begin.elapsed().as_nanos() as f64;
    // Always so; it keeps the calls from being left out.
    assert!(sum > 0, "a call that was timed did nothing");
    // What it takes to look at the clock is not theirs.
    let clock = (begin - before).as_nanos() as f64;
    (time - clock) / slaves.len() as f64
}
