//! The seeds and keys that were reckoned apart from any slave.

use super::{hex, Bench, CONNECT};
use crate::seed::{Generator, Resource};
use crate::Slave;

const FROM_1: [u32; 5] = [0x00042021, 0x04080601, 0x9DCCA8C5, 0x1255994F, 0x8EF917D1];
const FROM_0: [u32; 3] = [0xE124B63A, 0x8B9A74AB, 0x64E1B3AC];

#[test]
fn seeds_from_each_start() {
    for (start, seeds) in [
        (1, &FROM_1[..]),
        (0, &FROM_0[..]),
        (0x2545F491, &FROM_0[..]),
    ] {
        let mut generator = Generator::new(start);
        let mut bench = Bench::new();
        bench.slave = Slave::power_up(start);
        bench.ask(CONNECT);
        for (i, seed) in seeds.iter().enumerate() {
            assert_eq!(generator.step(), *seed);
            // Which resource is asked for makes no difference to the seed.
            assert_eq!(bench.seed([0x01, 0x04][i % 2]), *seed);
        }
    }
}

#[test]
fn the_generator_runs_on_across_sessions() {
    let mut bench = Bench::new();
    bench.ask(CONNECT);
    assert_eq!(bench.seed(0x01), FROM_1[0]);
    bench.ask(CONNECT);
    assert_eq!(bench.seed(0x04), FROM_1[1]);
    bench.ask("FE");
    bench.ask(CONNECT);
    assert_eq!(bench.seed(0x01), FROM_1[2]);
    assert_eq!(bench.ask("F7 04 00 00 00 00"), "FE 25");
    bench.ask(CONNECT);
    assert_eq!(bench.seed(0x04), FROM_1[3]);
}

#[test]
fn keys() {
    assert_eq!(Resource::Calibration.key(0x00042021), 0x04F07F00);
    assert_eq!(Resource::Lists.key(0x00042021), 0x04FA2100);
    // The sum wraps before it is turned.
    assert_eq!(Resource::Calibration.key(0xFFFF_FFFF), 0x00D0_5D00);
    assert_eq!(Resource::Lists.key(0xFFFF_2600), 0x0000_0000);
}

#[test]
fn a_key_opens_its_own_lock_alone() {
    let mut bench = Bench::new();
    bench.ask(CONNECT);
    assert_eq!(bench.unlock(0x01), "FF 04");
    bench.told("FD", "FF 00 04 00 00 00");
    assert_eq!(bench.unlock(0x04), "FF 00");
    bench.told("FD", "FF 00 00 00 00 00");
    bench.ask(CONNECT);
    bench.told("FD", "FF 00 05 00 00 00");
    assert_eq!(bench.unlock(0x04), "FF 01");
    bench.told("FD", "FF 00 01 00 00 00");
}

#[test]
fn the_other_resources_key_is_wrong() {
    let mut bench = Bench::new();
    bench.ask(CONNECT);
    let seed = bench.seed(0x01);
    let key = Resource::Lists.key(seed);
    let answer = bench.ask(&format!("F7 04 {}", hex(&key.to_le_bytes())));
    assert_eq!(answer, "FE 25");
    assert_eq!(bench.send("FD"), 2);
}

#[test]
fn a_new_seed_replaces_the_one_before() {
    let mut bench = Bench::new();
    bench.ask(CONNECT);
    let old = Resource::Calibration.key(bench.seed(0x01));
    let new = Resource::Lists.key(bench.seed(0x04));
    // Judged for the lists now, by the second seed.
    assert_eq!(
        bench.ask(&format!("F7 04 {}", hex(&new.to_le_bytes()))),
        "FF 01"
    );
    bench.seed(0x01);
    assert_eq!(
        bench.ask(&format!("F7 04 {}", hex(&old.to_le_bytes()))),
        "FE 25"
    );
}
