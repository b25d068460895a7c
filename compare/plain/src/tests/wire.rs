//! The reader's numbers, and the order of 5, 6 and 2.

use super::{frame, hex, Bench, CONNECT};

const CONNECT_FRAME: &str = "9A 02 00 FF 00 01";

#[test]
fn bytes_outside_are_passed_over() {
    let mut bench = Bench::new();
    assert_eq!(bench.wire("00 01 FF 9B 00 9B 9B 05"), [0; 8]);
    assert_eq!(bench.wire("9A 9A 9A"), [0; 3]);
    assert_eq!(bench.wire("02 00 FF 00 01"), [0, 0, 0, 0, 1]);
    // The message has ended; what follows belongs to none.
    assert_eq!(bench.wire("02 00 FF 00 01 9A"), [0; 6]);
}

#[test]
fn lengths() {
    let mut bench = Bench::new();
    assert_eq!(bench.wire("9A 00 00"), [0, 3, 0]);
    assert_eq!(bench.wire("9A 41 00"), [0, 3, 0]);
    assert_eq!(bench.wire("9A FF"), [0, 3]);
    assert_eq!(bench.wire("9A 9B 00"), [0, 0, 3]);
    assert_eq!(bench.wire("9A 9B 01 9A"), [0, 0, 3, 0]);
    bench.wire("00");
    // The longest packet, and of one that is longer nothing is heard but its LEN.
    for (length, number) in [(64, 1), (65, 3)] {
        let mut packet = vec![0; length];
        packet[0] = 0xFF;
        let numbers = bench.wire(&hex(&frame(0, &packet)));
        let heard: Vec<u32> = numbers.into_iter().filter(|n| *n > 0).collect();
        assert_eq!(heard, [number]);
        bench.slot();
    }
}

#[test]
fn escapes() {
    let mut bench = Bench::new();
    assert_eq!(bench.wire("9A 9B 05 9A"), [0, 0, 4, 0]);
    assert_eq!(bench.wire("02 9B 9B 00"), [0, 0, 4, 0]);
    assert_eq!(bench.wire("9A 02 9B 02"), [0, 0, 0, 4]);
    // CTR and checksum as pairs; the number comes at the pair's second byte.
    assert_eq!(
        bench.wire("9A 02 9B 01 FF 00 9B 00"),
        [0, 0, 0, 0, 0, 0, 0, 1]
    );
    assert_eq!(bench.slot().len(), 12 * 3 - 1);
    assert_eq!(bench.wire("9A 01 9B 00 FF 9B 00"), [0, 0, 0, 0, 0, 0, 1]);
    assert_eq!(bench.packet(), "FE 21");
    // Both pairs inside the packet.
    assert_eq!(
        bench.wire("9A 03 00 FC 9B 00 9B 01 34"),
        [0, 0, 0, 0, 0, 0, 0, 0, 1]
    );
    assert_eq!(bench.packet(), "FE 00");
}

#[test]
fn sync_cuts_off() {
    let mut bench = Bench::new();
    assert_eq!(bench.wire("9A 02 9A"), [0, 0, 7]);
    assert_eq!(bench.wire("9B 9A"), [0, 7]);
    assert_eq!(bench.wire("02 00 9B 9A 9A"), [0, 0, 0, 7, 0]);
    assert_eq!(bench.wire("02 00 FF 00 01"), [0, 0, 0, 0, 1]);
}

#[test]
fn checksums() {
    let mut bench = Bench::new();
    assert_eq!(bench.wire("9A 02 00 FF 00 02"), [0, 0, 0, 0, 0, 5]);
    // A sum over the escaped bytes, or with SYNC in it, is wrong.
    assert_eq!(bench.wire("9A 02 9B 01 FF 00 9D"), [0, 0, 0, 0, 0, 0, 5]);
    assert_eq!(bench.wire("9A 02 00 FF 00 9B 00"), [0, 0, 0, 0, 0, 0, 5]);
    assert_eq!(bench.slot(), "-");
}

#[test]
fn five_before_six_before_two() {
    let mut bench = Bench::new();
    assert_eq!(bench.send("FD"), 2);
    assert_eq!(bench.send("00"), 2);
    assert_eq!(bench.send("FF"), 2);
    assert_eq!(bench.send("FF 01"), 2);
    assert_eq!(bench.send(CONNECT), 1);
    assert_eq!(bench.wire("9A 01 01 FC 00"), [0, 0, 0, 0, 5]);
    assert_eq!(bench.send("FC"), 6);
    assert_eq!(bench.send(CONNECT), 6);
    bench.packet();
    assert_eq!(bench.send("FE"), 1);
    // The session is closed, and its answer still waits.
    assert_eq!(bench.send("FD"), 6);
    assert_eq!(bench.send(CONNECT), 6);
    assert_eq!(bench.packet(), "FF");
    assert_eq!(bench.send("FD"), 2);
    assert_eq!(bench.send(CONNECT), 1);
}

#[test]
fn only_the_reader_moves_without_a_taken_command() {
    let mut bench = Bench::new();
    bench.wire(CONNECT_FRAME);
    let before = bench.slave.clone();
    for wire in [
        "9A 02 9A 9B 05",
        "9A 00",
        "9A 01 01 FC 00",
        "9A 01 01 FC FE",
        "9A 02 00 FE 9A 01",
    ] {
        bench.wire(wire);
        let mut now = bench.slave.clone();
        now.reader = before.reader.clone();
        assert_eq!(now, before, "{}", wire);
    }
}

#[test]
fn the_counter_runs_round_and_across_sessions() {
    let mut bench = Bench::new();
    for _ in 0..100 {
        bench.ask(CONNECT);
        bench.ask("FC");
        bench.ask("FE");
    }
    // 300 messages were sent: 300 - 256.
    assert_eq!(bench.slave.ctr, 44);
    assert_eq!(bench.slot(), "-");
    assert_eq!(bench.slave.ctr, 44);
}

#[test]
fn both_forms_of_the_call_agree() {
    let mut bench = Bench::new();
    let mut other = bench.slave.clone();
    let mut cal = vec![0; 4096];
    for byte in super::bytes("9B 9A 02 00 FF 00 01 9A 01 9A 00 9A 9B 07 9A 01 01 FC FF") {
        let number = bench.receive(byte);
        assert_eq!(other.receive_byte_inlined(&mut cal, &[], byte), number);
        assert_eq!(bench.slave, other);
    }
}
