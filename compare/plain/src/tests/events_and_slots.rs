//! Sampling, missing, dropping and the order in which packets leave.

use super::{Bench, CONNECT};
use crate::{Slave, NO_SUCH_EVENT, TOO_LITTLE_ROOM};

fn filled() -> Bench {
    let mut bench = Bench::with_lists();
    for (i, byte) in bench.meas.iter_mut().enumerate() {
        *byte = (i as u8).wrapping_add(1);
    }
    bench
}

#[test]
fn refusals_change_nothing() {
    let mut bench = filled();
    bench.run(0, 0, &[1], &[]);
    let before = bench.slave.clone();
    for event in [2, 3, 256, 65_536, u32::MAX] {
        assert_eq!(bench.event(event, 0), NO_SUCH_EVENT);
    }
    assert_eq!(NO_SUCH_EVENT, 524_288);
    let mut out = [0xEE; 134];
    assert_eq!(bench.slave.slot(&mut out), TOO_LITTLE_ROOM);
    assert_eq!(bench.slave.slot(&mut []), 589_824);
    assert_eq!(bench.slave, before);
    assert_eq!(bench.event(0, 0), 256);
    let before = bench.slave.clone();
    assert_eq!(bench.slave.slot(&mut out), TOO_LITTLE_ROOM);
    assert_eq!(out, [0xEE; 134]);
    assert_eq!(bench.slave, before);
}

#[test]
fn an_event_without_a_session_does_nothing() {
    let mut slave = Slave::power_up(1);
    assert_eq!(slave.event(&[], &[], 0, 7), 0);
    assert_eq!(slave, Slave::power_up(1));
}

#[test]
fn both_odts_are_captured_at_the_event() {
    let mut bench = filled();
    bench.run(2, 1, &[4, 1], &[4, 3]);
    assert_eq!(bench.event(0, 0), 0);
    assert_eq!(bench.event(1, 0xABCD), 256);
    bench.meas.clear();
    assert_eq!(bench.event(1, 0), 1);
    assert_eq!(bench.packet(), "04 CD AB 01 02 03 04 05");
    // ODT 1 is still unsent.
    assert_eq!(bench.event(1, 0), 1);
    assert_eq!(bench.packet(), "05 01 02 03 04 05 06 07");
    assert_eq!(bench.packet(), "-");
    assert_eq!(bench.event(1, 1), 256);
    assert_eq!(bench.packet(), "04 01 00 00 00 00 00 00");
}

#[test]
fn an_empty_first_odt_sends_its_clock() {
    let mut bench = filled();
    bench.run(3, 0, &[], &[1]);
    assert_eq!(bench.event(0, 0x0201), 256);
    assert_eq!(bench.packet(), "06 01 02");
    assert_eq!(bench.packet(), "07 01");
    assert_eq!(bench.packet(), "-");
}

#[test]
fn bytes_no_longer_inside_read_0() {
    let mut bench = filled();
    bench.run(0, 0, &[4, 1], &[]);
    bench.meas.truncate(2);
    assert_eq!(bench.event(0, 0), 256);
    assert_eq!(bench.packet(), "00 00 00 01 02 00 00 00");
}

#[test]
fn sampled_and_missed_are_counted_apart() {
    let mut bench = filled();
    bench.run(0, 0, &[1], &[1]);
    bench.run(1, 0, &[1], &[]);
    bench.run(2, 0, &[1], &[]);
    bench.run(3, 0, &[1], &[1]);
    assert_eq!(bench.event(0, 0), 4 * 256);
    for _ in 0..4 {
        bench.packet();
    }
    assert_eq!(bench.event(0, 0), 2 * 256 + 2);
    assert_eq!(bench.event(0, 0), 4);
    assert_eq!(bench.event(1, 0), 0);
}

#[test]
fn the_round_serves_one_packet_of_each_list() {
    let mut bench = filled();
    for list in 0..4 {
        bench.run(list, 0, &[1], &[1]);
    }
    bench.event(0, 0);
    let mut order = String::new();
    for _ in 0..8 {
        order += &bench.packet()[1..2];
    }
    assert_eq!(order, "02461357");
    assert_eq!(bench.packet(), "-");
}

#[test]
fn an_answer_waits_for_a_list_only_after_an_answer() {
    let mut bench = filled();
    bench.run(1, 0, &[1], &[1]);
    bench.event(0, 0);
    assert!(bench.slave.last_was_answer);
    bench.send("FC");
    assert_eq!(bench.packet(), "02 00 00 01");
    assert_eq!(bench.packet(), "FE 00");
    bench.send("FC");
    assert_eq!(bench.packet(), "03 01");
    assert_eq!(bench.packet(), "FE 00");
    // With no list packet two answers may follow each other.
    bench.send("FC");
    assert_eq!(bench.packet(), "FE 00");
}

#[test]
fn half_a_sample_is_dropped_too() {
    let mut bench = filled();
    bench.run(0, 0, &[1], &[1]);
    bench.event(0, 5);
    assert_eq!(bench.packet(), "00 05 00 01");
    assert_eq!(bench.ask("DE 00 00 00"), "FF 00");
    assert_eq!(bench.packet(), "-");
}

/// Of four lists with a packet each, the order in which these leave.
fn order(bench: &mut Bench) -> String {
    assert_eq!(bench.event(0, 0), 4 * 256);
    let numbers = (0..4).map(|_| bench.packet()[1..2].to_string());
    numbers.collect()
}

/// Stopping and starting lists does not move the round; freeing them begins it anew.
#[test]
fn the_round_begins_anew_when_lists_are_freed() {
    for freed in ["", "D6", CONNECT, "FE"] {
        let mut bench = filled();
        bench.run(1, 0, &[1], &[]);
        bench.event(0, 0);
        assert_eq!(bench.packet(), "02 00 00 01");
        bench.good("DD 00");
        if !freed.is_empty() {
            bench.ask(freed);
            if freed != "D6" {
                bench.ask(CONNECT);
                bench.unlock(0x04);
            }
            bench.allocate(&[[1, 1]; 4]);
        }
        for list in 0..4 {
            bench.run(list, 0, &[1], &[]);
        }
        let expected = if freed.is_empty() { "4602" } else { "0246" };
        assert_eq!(order(&mut bench), expected, "{}", freed);
    }
}
