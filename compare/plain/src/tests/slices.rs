//! A slice of received bytes: what ends it, and that it is its bytes one by one.

use super::{bytes, Bench, CONNECT};

/// A wire with each number from 1 to 7 in it, noise before, between and behind; 6 needs an answer that waits.
const WIRE: &str = "55 9B 9A 01 00 FC FD 9A 9A 02 00 FF 00 01 9A 01 01 FC FE 00 9A 41 9A 01 9B 05 \
                    9A 01 02 FC 00 9A 02 9A 00 9A 03 9B 01 F0 9B 00 7D 9A 01 9B";

fn slice(bench: &mut Bench, hex: &str) -> (u32, usize) {
    bench.slice(&bytes(hex))
}

#[test]
fn an_empty_slice_takes_none_and_changes_nothing() {
    let mut bench = Bench::new();
    for wire in ["", "9A", "01", "9B"] {
        bench.wire(wire);
        let before = bench.slave.clone();
        assert_eq!(bench.slice(&[]), (0, 0));
        assert_eq!(bench.slave, before);
    }
}

#[test]
fn a_slice_in_which_nothing_ends_is_taken_whole() {
    let mut bench = Bench::new();
    assert_eq!(slice(&mut bench, "00 01 FF 9B 00"), (0, 5));
    assert_eq!(slice(&mut bench, "9A 9A 02 00 FF"), (0, 5));
    assert_eq!(slice(&mut bench, "00"), (0, 1));
    assert_eq!(slice(&mut bench, "01"), (1, 1));
}

#[test]
fn each_number_ends_a_slice_at_its_byte() {
    let mut bench = Bench::new();
    assert_eq!(slice(&mut bench, "9A 01 00 FC FD 9A"), (2, 5));
    assert_eq!(slice(&mut bench, "9A 00 9A"), (3, 2));
    assert_eq!(slice(&mut bench, "9A 9B 02 9A"), (4, 3));
    assert_eq!(slice(&mut bench, "9A 01 00 FC 00 9A"), (5, 5));
    assert_eq!(slice(&mut bench, "9A 01 9A 02 00 FF"), (7, 3));
    assert_eq!(slice(&mut bench, "02 00 FF 00 01 9A"), (1, 5));
    assert_eq!(slice(&mut bench, "9A 01 00 FC FD 9A"), (6, 5));
}

#[test]
fn of_several_frames_a_slice_takes_the_first() {
    let mut bench = Bench::new();
    bench.ask(CONNECT);
    let wire = bytes("9A 01 00 FC FD 9A 01 01 FD FF");
    assert_eq!(bench.slice(&wire), (1, 5));
    assert_eq!(bench.packet(), "FE 00");
    assert_eq!(bench.slice(&wire[5..]), (1, 5));
    assert_eq!(bench.packet(), "FF 00 05 00 00 00");
}

/// The wire by slices that end at this place and the other, each going on behind what was taken: the number of each byte.
fn cut(wire: &[u8], ends: [usize; 2]) -> (Bench, Vec<u32>) {
    let (mut bench, mut numbers) = (Bench::new(), Vec::new());
    for end in ends.into_iter().chain([wire.len()]) {
        while numbers.len() < end {
            let (number, taken) = bench.slice(&wire[numbers.len()..end]);
            numbers.resize(numbers.len() + taken - 1, 0);
            numbers.push(number);
        }
    }
    (bench, numbers)
}

#[test]
fn every_cut_is_the_bytes_one_by_one() {
    let wire = bytes(WIRE);
    let mut bench = Bench::new();
    let numbers = bench.wire(WIRE);
    assert!((0..=7).all(|number| numbers.contains(&number)));
    for first in 0..=wire.len() {
        for second in first..=wire.len() {
            let (cut, heard) = cut(&wire, [first, second]);
            assert_eq!(heard, numbers, "cut at {} and {}", first, second);
            assert_eq!(cut.slave, bench.slave, "cut at {} and {}", first, second);
            assert_eq!(cut.cal, bench.cal);
        }
    }
}

#[test]
fn both_forms_of_the_slice_agree() {
    let (mut bench, wire, mut at) = (Bench::new(), bytes(WIRE), 0);
    let (mut other, mut cal) = (bench.slave.clone(), vec![0; 4096]);
    while at < wire.len() {
        let took = bench.slice(&wire[at..]);
        assert_eq!(other.receive_inlined(&mut cal, &[], &wire[at..]), took);
        assert_eq!(bench.slave, other);
        at += took.1;
    }
}
