//! Times the proved slave and the plain one on the same input, and prints rows of a table: what, the
//! proved slave's nanoseconds, how many times the Rust call's, how many times the inlined loop's.
//! Asserts no time.
//!   bench                        those rows
//!   bench guns                   the rows of many slaves in one loop: bytes a second
//!   bench replay LOG WORDS...    the row of the replay program that these words run, on a log that is written to LOG

#![forbid(unsafe_code)]

mod guns;
mod loads;
mod master;
mod replay;
mod single;
mod subject;
mod timing;

use master::{Load, Shape};
use single::Times;
use std::ops::Range;
use std::slice::from_ref;
use subject::{Called, Inlined, Proved};
use timing::{median, trace, trace_by_slices, Bytes, Run, Slices, Way};

const RUNS: usize = 51;
/// Slots to a part of a run: short enough that most parts go by without a disturbance.
const PART: usize = 2000;

fn print_row(what: &str, times: &Times) {
    let inlined = times
        .inlined
        .map_or("-".to_string(), |t| format!("{:.2}", times.proved / t));
    println!(
        "| {} | {:.1} | {:.2} | {} |",
        what,
        times.proved,
        times.proved / times.called,
        inlined
    );
}

/// The three slaves take turns at each part of the load, so that all meet the same disturbance.
fn one_run<W: Way>(load: &Load, parts: &[Range<usize>], times: &mut [[Vec<f64>; 3]]) {
    let (mut proved, mut called, mut inlined) = (
        Run::<Proved>::new(),
        Run::<Called>::new(),
        Run::<Inlined>::new(),
    );
    for (part, times) in parts.iter().zip(times) {
        times[0].push(proved.go::<W>(load, part.clone()));
        times[1].push(called.go::<W>(load, part.clone()));
        times[2].push(inlined.go::<W>(load, part.clone()));
    }
    assert!(called.sum == inlined.sum && proved.sum > 0);
}

/// For each slave the sum of its parts' medians over the runs, for a byte.
fn bytes<W: Way>(load: &Load) -> Times {
    let slots = W::slots(load).len();
    let ends = (0..slots).step_by(PART);
    let parts: Vec<_> = ends.map(|s| s..slots.min(s + PART)).collect();
    let mut times = vec![[Vec::new(), Vec::new(), Vec::new()]; parts.len()];
    for _ in 0..RUNS {
        one_run::<W>(load, &parts, &mut times);
    }
    let mut each = |which: usize| {
        let medians = times.iter_mut().map(|part| median(&mut part[which]));
        medians.sum::<f64>() / load.bytes.len() as f64
    };
    Times {
        proved: each(0),
        called: each(1),
        inlined: Some(each(2)),
    }
}

/// Both slaves must do the same, by bytes and by slices, and the input must be what it is meant to be.
fn checked(load: Load, wanted: &[u32]) -> Load {
    let proved = trace::<Proved>(&load);
    assert!(proved == trace::<Called>(&load), "the slaves differ");
    assert!(proved == trace::<Inlined>(&load), "the plain slaves differ");
    for sliced in [
        trace_by_slices::<Proved>(&load),
        trace_by_slices::<Called>(&load),
        trace_by_slices::<Inlined>(&load),
    ] {
        assert!(proved == sliced, "slices differ from bytes");
    }
    for number in 0..8 {
        let met = proved.0.contains(&number);
        assert_eq!(met, wanted.contains(&number), "number {}", number);
    }
    load
}

/// The rows of a million bytes.
fn received() {
    let loads = [
        ("clean ones", checked(loads::clean(), &[0, 1])),
        (
            "clean ones in long packets",
            checked(loads::clean_and_long(), &[0, 1]),
        ),
        (
            "damaged ones",
            checked(loads::dirty(), &[0, 1, 2, 3, 4, 5, 6, 7]),
        ),
    ];
    for (what, load) in &loads {
        print_row(
            &format!("a byte of a million {}, slots between", what),
            &bytes::<Bytes>(load),
        );
    }
    for (what, load) in &loads {
        print_row(
            &format!("a byte of a million {} by slices, slots between", what),
            &bytes::<Slices>(load),
        );
    }
}

/// The rows of the bytes that end a command, with the extension that the address is set in before.
fn commands() {
    let data = |head: &[u8], count: usize| [head, &[0x55].repeat(count)].concat();
    for (what, extension, packet) in [
        ("CONNECT in a session", 0, vec![0xFF, 0]),
        ("UPLOAD of 7", 1, vec![0xF5, 7]),
        ("UPLOAD of 63", 1, vec![0xF5, 63]),
        ("DOWNLOAD of 6", 0, data(&[0xF0, 6], 6)),
        ("DOWNLOAD of 62", 0, data(&[0xF0, 62], 62)),
        (
            "SHORT_DOWNLOAD of 56",
            0,
            data(&[0xED, 56, 0, 0, 0, 0, 0, 0], 56),
        ),
        (
            "BUILD_CHECKSUM over 4,096",
            1,
            vec![0xF3, 0, 0, 0, 0x00, 0x10, 0, 0],
        ),
    ] {
        let address = vec![0xF6, 0, 0, extension, 0, 0, 0, 0];
        print_command(what, &[address], &packet);
    }
}

fn print_command(what: &str, before: &[Vec<u8>], packet: &[u8]) {
    print_row(
        &format!("the byte that ends {}", what),
        &single::command(before, packet),
    );
}

/// The rows of the steps to lists, each at its most; in the last, all other entries are written and lie
/// behind the new one.
fn allocations() {
    let lists = |count| vec![0xD5, 0, count, 0];
    let odts = |count| vec![0xD4, 0, 0, 0, count];
    let entries = |odt, count| vec![0xD3, 0, 0, 0, odt, count];
    let free = vec![0xD6];
    let pair = [free.clone(), lists(1), odts(2)];
    let taken = [&pair[..], &[entries(0, 64), entries(1, 64)]].concat();
    print_command("FREE_DAQ", &taken, &free);
    print_command("ALLOC_DAQ of 8", from_ref(&free), &lists(8));
    print_command("ALLOC_ODT of 16", &[free, lists(8)], &odts(16));
    print_command("ALLOC_ODT_ENTRY of 128", &pair, &entries(0, 128));
    let mut behind = [&pair[..], &[entries(1, 127), vec![0xE2, 0, 0, 0, 1, 0]]].concat();
    behind.resize(behind.len() + 127, vec![0xE1, 0xFF, 1, 1, 0, 0, 0, 0]);
    print_command(
        "ALLOC_ODT_ENTRY of 1 before 127 others",
        &behind,
        &entries(0, 1),
    );
}

/// The rows of events.
fn events() {
    for (lists, shape) in [
        ("four lists of 5 and 7 bytes", Shape::FOUR),
        ("four full lists", Shape::FULL),
        ("one list of 16 ODTs, 512 bytes", Shape::LONG),
        ("eight lists of 4 bytes", Shape::SHORT),
    ] {
        print_row(
            &format!("an event that samples {}", lists),
            &single::event(shape),
        );
    }
}

/// The rows of slots.
fn slots() {
    for (bytes, count) in [(8, 7), (64, 63)] {
        print_row(
            &format!("a slot that sends an answer of {} bytes", bytes),
            &single::slot_of_answer(count),
        );
    }
    for (what, shape, sent) in [
        ("a sample of 8 bytes", Shape::FOUR, 0),
        ("a sample of 64 bytes", Shape::FULL, 0),
        ("the last of the 16 packets, 33 bytes", Shape::LONG, 15),
        ("the last of eight lists' packets, 7 bytes", Shape::SHORT, 7),
    ] {
        print_row(
            &format!("a slot that sends {}", what),
            &single::slot_of_sample(shape, sent),
        );
    }
}

/// All rows beside the plain slave.
fn beside() {
    received();
    commands();
    allocations();
    events();
    slots();
}

fn main() {
    let words: Vec<String> = std::env::args().skip(1).collect();
    match words.iter().map(String::as_str).collect::<Vec<_>>()[..] {
        [] => beside(),
        ["guns"] => guns::rows(),
        ["replay", log, program, ref rest @ ..] => replay::row(log, program, rest),
        _ => {
            eprintln!("usage: bench [guns | replay LOG WORDS...]");
            std::process::exit(2);
        }
    }
}
