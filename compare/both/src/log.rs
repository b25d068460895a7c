//! A difference as a replay log: records in hex, and after # what a record cannot say.

use crate::proved::{first_unlike, Proved, STATE};
use crate::reference::expected;
use crate::step::{Call, Step};
use crate::wire::{hex, FRAME};

/// What the replay program lends to each memory; to a slot it lends no more than the longest frame.
const REPLAYED: usize = 4096;
/// The longest body of a record.
const MOST: usize = 256;

/// The words of the first difference, and how many steps lead to it.
fn first_difference(proved: &mut dyn Proved, steps: &[Step]) -> Option<(usize, String)> {
    let (expected, effects) = (expected(steps), proved.run(steps));
    let at = first_unlike(&expected, &effects)?;
    let did = effects.get(at).map_or("crashed".to_string(), |e| e.words());
    Some((
        at + 1,
        format!("proved: {}\nplain:  {}", did, expected[at].words()),
    ))
}

/// Leaves out whatever the difference does not need: halves first, single steps last.
fn shorten(proved: &mut dyn Proved, mut steps: Vec<Step>) -> Vec<Step> {
    let mut part = steps.len() / 2;
    while part > 0 {
        let mut from = 0;
        while from < steps.len() {
            let mut fewer = steps.clone();
            fewer.drain(from..steps.len().min(from + part));
            match first_difference(proved, &fewer) {
                Some((end, _)) => {
                    fewer.truncate(end);
                    steps = fewer;
                }
                None => from += part,
            }
        }
        part /= 2;
    }
    steps
}

/// Lends what the replay program lends wherever the difference comes all the same.
fn plainly_lent(proved: &mut dyn Proved, mut steps: Vec<Step>) -> Vec<Step> {
    let mut at = 0;
    while at < steps.len() {
        for plain in plainer(&steps[at]) {
            let mut tried = steps.clone();
            tried[at] = plain;
            if let Some((end, _)) = first_difference(proved, &tried) {
                tried.truncate(end);
                steps = tried;
                break;
            }
        }
        at += 1;
    }
    steps
}

/// The step as the replay program makes it; then with its memories, but a room of its own.
fn plainer(step: &Step) -> Vec<Step> {
    let mut steps = vec![Step {
        cal: REPLAYED,
        meas: REPLAYED,
        ..step.clone()
    }];
    if let Call::Slot(_) = step.call {
        let mut roomy = steps[0].clone();
        roomy.call = Call::Slot(FRAME);
        steps.insert(0, roomy);
    }
    steps
}

/// Prints the shortest log found of a difference that these steps lead to, and both results. Without
/// a difference all steps are printed, with these words.
pub fn print(proved: &mut dyn Proved, steps: &[Step], words: &str) {
    let (steps, words) = match first_difference(proved, steps) {
        None => (steps.to_vec(), words.to_string()),
        Some((end, words)) => {
            let steps = shorten(proved, steps[..end].to_vec());
            let steps = plainly_lent(proved, steps);
            let last = first_difference(proved, &steps).map_or(words, |d| d.1);
            (steps, last)
        }
    };
    print_steps(&steps);
    println!("{}", words);
}

fn print_steps(steps: &[Step]) {
    let mut lent = (STATE, REPLAYED, REPLAYED);
    let mut wire = Vec::new();
    for (step, effect) in steps.iter().zip(expected(steps)) {
        let now = (step.state, step.cal, step.meas);
        let on_wire = matches!(step.call, Call::Byte(_));
        if !on_wire || now != lent || wire.len() == MOST {
            flush(&mut wire);
        }
        if now != lent {
            println!(
                "# from here on {} bytes of state are lent, {} of calibration, {} of measured",
                now.0, now.1, now.2
            );
            lent = now;
        }
        match &step.call {
            Call::Byte(byte) => wire.push(*byte),
            Call::Slice(bytes) => print_slice(bytes, effect.taken as usize),
            other => println!("{}", words(other)),
        }
    }
    flush(&mut wire);
}

/// Prints a slice: what is taken of it as records, so that the replay program takes the same bytes.
fn print_slice(bytes: &[u8], taken: usize) {
    println!("# in one slice of {} bytes:", bytes.len());
    for part in bytes[..taken].chunks(MOST) {
        println!("{}", record(1, part));
    }
    if taken < bytes.len() {
        println!("# and behind these, not taken: {}", hex(&bytes[taken..]));
    }
}

/// Prints the wire bytes gathered so far as one record.
fn flush(wire: &mut Vec<u8>) {
    if !wire.is_empty() {
        println!("{}", record(1, wire));
        wire.clear();
    }
}

/// A call as a record, or as several where one cannot hold it.
fn words(call: &Call) -> String {
    match call {
        Call::PowerUp(1) => "# power-up".to_string(),
        Call::PowerUp(start) => format!("# power-up with start number {:08X}", start),
        Call::Byte(byte) => record(1, &[*byte]),
        Call::Slice(bytes) => record(1, bytes),
        Call::Event(event, clock) if *event < 256 => {
            let clock = clock.to_le_bytes();
            record(2, &[*event as u8, clock[0], clock[1]])
        }
        Call::Event(event, clock) => format!("# event {} with clock {:04X}", event, clock),
        Call::Slot(FRAME) => record(3, &[]),
        Call::Slot(room) => format!("# slot with room {}", room),
        Call::Measure(at, bytes) if usize::from(*at) + bytes.len() <= REPLAYED => {
            let parts = bytes.chunks(MOST - 2).zip((*at..).step_by(MOST - 2));
            let records =
                parts.map(|(part, at)| record(4, &[&at.to_le_bytes()[..], part].concat()));
            records.collect::<Vec<String>>().join("\n")
        }
        Call::Measure(at, bytes) => format!("# measured bytes at {}: {}", at, hex(bytes)),
    }
}

/// Body length, kind, body.
fn record(kind: u16, body: &[u8]) -> String {
    let mut bytes = (body.len() as u16).to_le_bytes().to_vec();
    bytes.extend_from_slice(&kind.to_le_bytes());
    bytes.extend_from_slice(body);
    hex(&bytes)
}
