//! Many guns on one host: slaves that are served from one loop, each with its own state, memories and wire.

use crate::loads::clean_wire;
use crate::master::Load;
use crate::subject::{Called, Memories, Proved, Subject};
use crate::timing::{median, Host, RING};
use std::thread;
use std::time::Instant;

const GUNS: u32 = 64;
/// Of each gun: long enough that beginning a thread takes no time beside it.
const BYTES: usize = 50_000;
const RUNS: usize = 21;

/// One slave and how far its wire has come.
struct Gun<'a, S: Subject> {
    slave: S,
    memories: Memories,
    wire: &'a Load,
    at: usize,
    host: Host<'a>,
}

impl<'a, S: Subject> Gun<'a, S> {
    fn new(wire: &'a Load) -> Gun<'a, S> {
        Gun {
            slave: S::power_up(1),
            memories: Memories::new(),
            wire,
            at: 0,
            host: Host {
                slots: &wire.answers,
                sum: 0,
            },
        }
    }

    /// Hands on what has come since, and says whether there was anything.
    fn serve(&mut self) -> bool {
        let end = self.wire.bytes.len().min(self.at + RING);
        let ring = &self.wire.bytes[self.at..end];
        self.host
            .hand(&mut self.slave, &mut self.memories, self.at, ring);
        self.at = end;
        !ring.is_empty()
    }
}

/// The one loop, until every wire is at its end.
#[inline(never)]
fn serve_all<S: Subject>(guns: &mut [Gun<S>]) {
    let mut busy = true;
    while busy {
        busy = false;
        for gun in guns.iter_mut() {
            busy |= gun.serve();
        }
    }
}

/// Nanoseconds of all guns on so many threads, each with its share of them.
fn time<S: Subject>(wires: &[Load], threads: usize) -> f64 {
    let mut guns: Vec<Gun<S>> = wires.iter().map(Gun::new).collect();
    let share = guns.len() / threads;
    let begin = Instant::now();
    thread::scope(|scope| {
        for share in guns.chunks_mut(share) {
            scope.spawn(move || serve_all(share));
        }
    });
    let time = begin.elapsed().as_nanos() as f64;
    assert!(
        guns.iter().all(|gun| gun.host.slots.is_empty()),
        "an answer was never sent"
    );
    time
}

/// One thread and two take turns, so that both meet the same disturbance.
fn row<S: Subject>(what: &str, wires: &[Load]) {
    let mut times = [Vec::new(), Vec::new()];
    for _ in 0..RUNS {
        times[0].push(time::<S>(wires, 1));
        times[1].push(time::<S>(wires, 2));
    }
    let bytes: usize = wires.iter().map(|wire| wire.bytes.len()).sum();
    let [one, two] = times.map(|mut some| bytes as f64 / median(&mut some) * 1000.0);
    println!("| {} | {:.0} | {:.0} | {:.2} |", what, one, two, two / one);
}

/// The rows: millions of bytes a second on one thread and on two, and how many times as many.
pub fn rows() {
    let wires: Vec<Load> = (1..=GUNS).map(|gun| clean_wire(gun, BYTES)).collect();
    row::<Proved>(&format!("{} guns", GUNS), &wires);
    row::<Called>(&format!("{} guns with the plain slave", GUNS), &wires);
}
