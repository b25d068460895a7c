//! Single calls: the byte that ends a command, an event, slots.

use crate::master::{Master, Shape};
use crate::subject::{Called, Inlined, Memories, Proved, Subject};
use crate::timing::{calls, median};

/// Few enough slaves for the fastest memory of any processor.
const SLAVES: usize = 8;
/// A clock may make steps as long as a call; the mean of so many turns is finer.
const TURNS: usize = 20;
const RUNS: usize = 401;

pub struct Times {
    pub proved: f64,
    pub called: f64,
    pub inlined: Option<f64>,
}

/// Slaves in the state that a call is timed in.
struct Ready<S: Subject> {
    before: S,
    memories: Memories,
    slaves: Vec<S>,
}

impl<S: Subject> Ready<S> {
    fn new(prepare: impl Fn(&mut Master<S>)) -> Ready<S> {
        let mut master = Master::new();
        master.open();
        prepare(&mut master);
        Ready {
            slaves: vec![master.slave.clone(); SLAVES],
            before: master.slave,
            memories: master.memories,
        }
    }

    fn time(&mut self, call: &impl Fn(&mut S, &mut Memories) -> u32) -> f64 {
        let mut times = 0.0;
        for _ in 0..TURNS {
            self.slaves.fill(self.before.clone());
            times += calls(&mut self.slaves, &mut self.memories, call);
        }
        times / TURNS as f64
    }
}

/// The frame of a command after those that have to come before it.
fn after<S: Subject>(master: &mut Master<S>, before: &[Vec<u8>], packet: &[u8]) -> Vec<u8> {
    for packet in before {
        assert_eq!(master.ask(packet)[0], 0xFF, "what comes before is done");
    }
    master.frame(packet)
}

/// CTR and bytes of that frame are the same for every slave, so is its last byte.
fn last_byte(before: &[Vec<u8>], packet: &[u8]) -> u8 {
    let mut master = Master::<Called>::new();
    master.open();
    let frame = after(&mut master, before, packet);
    master.wire(&frame);
    assert_eq!(master.slot()[0], 0xFF, "a command that is timed is done");
    frame[frame.len() - 1]
}

/// All but the last byte of the command has come.
fn all_but_last<S: Subject>(master: &mut Master<S>, before: &[Vec<u8>], packet: &[u8]) {
    let frame = after(master, before, packet);
    master.wire(&frame[..frame.len() - 1]);
}

/// The byte that ends this command, after those that have to come before it.
pub fn command(before: &[Vec<u8>], packet: &[u8]) -> Times {
    let last = last_byte(before, packet);
    let mut proved = Ready::<Proved>::new(|m| all_but_last(m, before, packet));
    let mut called = Ready::<Called>::new(|m| all_but_last(m, before, packet));
    let mut inlined = Ready::<Inlined>::new(|m| all_but_last(m, before, packet));
    let mut times = [Vec::new(), Vec::new(), Vec::new()];
    for _ in 0..RUNS {
        times[0].push(proved.time(&|s, m| s.byte(m, last)));
        times[1].push(called.time(&|s, m| s.byte(m, last)));
        times[2].push(inlined.time(&|s, m| s.byte(m, last)));
    }
    Times {
        proved: median(&mut times[0]),
        called: median(&mut times[1]),
        inlined: Some(median(&mut times[2])),
    }
}

/// An event of such lists.
pub fn event(shape: Shape) -> Times {
    let mut proved = Ready::<Proved>::new(|m| m.start_lists(shape));
    let mut called = Ready::<Called>::new(|m| m.start_lists(shape));
    let mut times = [Vec::new(), Vec::new()];
    for _ in 0..RUNS {
        times[0].push(proved.time(&|s, m| s.event(m, 0, 7)));
        times[1].push(called.time(&|s, m| s.event(m, 0, 7)));
    }
    in_two(&mut times)
}

/// A slot with an answer of so many bytes behind FF.
pub fn slot_of_answer(count: u8) -> Times {
    let packet = [0xF4, count, 0, 1, 0, 2, 0, 0];
    slots(
        Ready::new(|m| m.send(&packet)),
        Ready::new(|m| m.send(&packet)),
    )
}

/// A slot with a packet of such lists, after so many of them.
pub fn slot_of_sample(shape: Shape, sent: usize) -> Times {
    slots(
        Ready::new(|m| sampled(m, shape, sent)),
        Ready::new(|m| sampled(m, shape, sent)),
    )
}

fn sampled<S: Subject>(master: &mut Master<S>, shape: Shape, sent: usize) {
    master.start_lists(shape);
    master.slave.event(&master.memories, 0, 0x1234);
    for _ in 0..sent {
        master.slot();
    }
}

fn slots(mut proved: Ready<Proved>, mut called: Ready<Called>) -> Times {
    let mut times = [Vec::new(), Vec::new()];
    for _ in 0..RUNS {
        times[0].push(proved.time(&|s, m| s.slot(&mut m.room)));
        times[1].push(called.time(&|s, m| s.slot(&mut m.room)));
    }
    in_two(&mut times)
}

fn in_two(times: &mut [Vec<f64>; 2]) -> Times {
    Times {
        proved: median(&mut times[0]),
        called: median(&mut times[1]),
        inlined: None,
    }
}
