//! Three wrong keys since power-up, and it stays shut.

use super::{Bench, CONNECT};
use crate::Slave;

/// A session after three wrong keys.
fn shut() -> Bench {
    let mut bench = Bench::new();
    for resource in [0x01, 0x04, 0x01] {
        bench.wrong_key(resource);
    }
    bench.ask(CONNECT);
    bench
}

#[test]
fn the_third_wrong_key_shuts_it() {
    let mut bench = Bench::new();
    for resource in [0x01, 0x04, 0x01] {
        // Both resources still get their seeds, and neither a right key nor a new session clears the count.
        bench.ask(CONNECT);
        assert_eq!(bench.unlock(0x01), "FF 04");
        assert_eq!(bench.unlock(0x04), "FF 00");
        bench.wrong_key(resource);
    }
    bench.ask(CONNECT);
    bench.refused("F8 00 01", "FE 25");
    bench.refused("F8 00 04", "FE 25");
}

#[test]
fn only_the_length_is_judged_before() {
    let mut bench = shut();
    bench.refused("F8 02", "FE 21");
    for packet in ["F8 01 00", "F8 02 02", "F8 00 FF", "F8 00 01 00 00"] {
        bench.refused(packet, "FE 25");
    }
    // No seed is out.
    bench.refused("F7", "FE 21");
    bench.refused("F7 05", "FE 29");
    bench.refused("F7 04 00 7F F0 04", "FE 29");
}

#[test]
fn when_shut_all_else_goes_on() {
    let mut bench = shut();
    bench.cal[..2].copy_from_slice(&[7, 8]);
    bench.good("F6 00 00 00 00 00 00 00");
    assert_eq!(bench.ask("F5 01"), "FF 07");
    assert_eq!(
        bench.ask("F3 00 00 00 01 00 00 00"),
        "FF 02 00 00 08 00 00 00"
    );
    assert_eq!(bench.ask("F4 02 00 00 00 00 00 00"), "FF 07 08");
    bench.told("FC", "FE 00");
    // What needs a key stays locked.
    bench.refused("F0 01 55", "FE 25");
    bench.refused("ED 01 00 00 00 00 00 00 55", "FE 25");
    bench.refused("DD 00", "FE 25");
    bench.refused("00", "FE 20");
    bench.good("FE");
    assert_eq!(bench.send("F8 00 01"), 2);
    assert_eq!(bench.ask(CONNECT), "FF 05 00 40 40 00 01 01");
}

#[test]
fn a_power_up_opens_it_again() {
    let mut bench = shut();
    bench.refused("F8 00 01", "FE 25");
    bench.slave = Slave::power_up(1);
    for resource in [0x01, 0x01, 0x04] {
        bench.ask(CONNECT);
        assert_eq!(bench.unlock(0x01), "FF 04");
        bench.wrong_key(resource);
    }
    bench.ask(CONNECT);
    bench.refused("F8 00 01", "FE 25");
}
