//! Makes the same calls to the proved slave and to the plain one, and compares all they do.
//!   both [CALLS [SEED [DRIVER WORDS...]]]
//! Built sequences come first, then calls by chance until there were CALLS in all. With DRIVER the
//! proved slave is the program compare/driver.c, run by these words; else it is linked in.

#![forbid(unsafe_code)]

mod built;
mod cuts;
mod dice;
mod effect;
mod lent;
#[cfg(feature = "linked")]
mod linked;
mod log;
mod packet;
mod piped;
mod proved;
mod random;
mod reference;
mod rig;
mod seen;
mod step;
mod tool;
mod wire;

use proved::Proved;
use rig::Rig;
use std::process::exit;

const CALLS: u64 = 1_000_000;
const SEED: u64 = 2024;

/// The argument at that place, or what stands for it.
fn argument(at: usize, default: u64) -> u64 {
    match std::env::args().nth(at) {
        None => default,
        Some(word) => word.parse().unwrap_or_else(|_| {
            eprintln!("both: no number: {}", word);
            exit(2)
        }),
    }
}

#[cfg(feature = "linked")]
fn linked() -> Box<dyn Proved> {
    Box::new(linked::Linked)
}

#[cfg(not(feature = "linked"))]
fn linked() -> Box<dyn Proved> {
    eprintln!("both: the slave was not linked in; name its driver");
    exit(2)
}

fn main() {
    let (calls, seed) = (argument(1, CALLS), argument(2, SEED));
    let driver: Vec<String> = std::env::args().skip(3).collect();
    let mut proved = if driver.is_empty() {
        linked()
    } else {
        Box::new(piped::Piped::new(driver))
    };
    println!("The proved slave is {}", proved.way());
    if proved.state_size() != proved::STATE {
        println!("Its state has {} bytes", proved.state_size());
        println!("0 passed, 1 failed");
        exit(1);
    }
    let mut rig = Rig::new(calls, seed, proved);
    built::run(&mut rig);
    println!("{} calls were built, the rest comes by chance\n", rig.calls);
    random::run(&mut rig);
    rig.settle();
    let mut failed = rig.differences;
    let uncovered = rig.seen.print();
    if rig.cut_short() {
        println!("So much differs that the rest was left out: what it covered is not judged.");
    } else {
        failed += uncovered;
    }
    println!("{} passed, {} failed", rig.calls, failed);
    exit(i32::from(failed > 0));
}
