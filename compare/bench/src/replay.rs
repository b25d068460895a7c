//! The replay program on a large log: a clean wire as records of its bytes, with a slot behind each command.

use crate::loads::clean_wire;
use crate::master::Load;
use crate::timing::{median, RING};
use std::fs::{write, File};
use std::io;
use std::process::{exit, Command, Stdio};
use std::time::Instant;

const BYTES: usize = 4_000_000;
const RUNS: usize = 5;

/// Body length, kind, body: kind 1 are wire bytes, 3 a slot.
fn record(kind: u16, body: &[u8], to: &mut Vec<u8>) {
    to.extend_from_slice(&(body.len() as u16).to_le_bytes());
    to.extend_from_slice(&kind.to_le_bytes());
    to.extend_from_slice(body);
}

fn log_of(load: &Load) -> Vec<u8> {
    let (mut log, mut from) = (Vec::new(), 0);
    for to in &load.slots {
        for body in load.bytes[from..*to].chunks(RING) {
            record(1, body, &mut log);
        }
        record(3, &[], &mut log);
        from = *to;
    }
    log
}

/// A line for each slot, or what it printed says nothing of the time it took.
fn printed(log: &str, program: &str, words: &[&str]) -> io::Result<usize> {
    let output = Command::new(program)
        .args(words)
        .stdin(File::open(log)?)
        .output()?;
    Ok(output.stdout.iter().filter(|byte| **byte == b'\n').count())
}

/// Nanoseconds of one run.
fn time(log: &str, program: &str, words: &[&str]) -> io::Result<f64> {
    let input = File::open(log)?;
    let begin = Instant::now();
    Command::new(program)
        .args(words)
        .stdin(input)
        .stdout(Stdio::null())
        .status()?;
    Ok(begin.elapsed().as_nanos() as f64)
}

fn measured(log: &str, program: &str, words: &[&str]) -> io::Result<f64> {
    let load = clean_wire(1, BYTES);
    write(log, log_of(&load))?;
    let lines = printed(log, program, words)?;
    assert_eq!(lines, load.slots.len(), "replay has not run the log");
    let times: io::Result<Vec<f64>> = (0..RUNS).map(|_| time(log, program, words)).collect();
    Ok(load.bytes.len() as f64 / median(&mut times?) * 1000.0)
}

/// The row: millions of wire bytes a second.
pub fn row(log: &str, program: &str, words: &[&str]) {
    match measured(log, program, words) {
        Ok(bytes) => println!(
            "| replay, on a log of {} wire bytes | {:.1} |",
            BYTES, bytes
        ),
        Err(why) => {
            eprintln!("bench: {} was not run: {}", program, why);
            exit(1);
        }
    }
}
