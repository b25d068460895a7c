//! The eleven cases of the bench sheet, byte for byte, through the whole slave.

use super::{bytes, hex, rising, sizes, Bench, CONNECT};

const CONNECT_FRAME: &str = "9A 02 00 FF 00 01";
const CONNECT_ANSWER: &str = "9A 08 00 FF 05 00 40 40 00 01 01 8E";

#[test]
fn case_1_connect() {
    let mut bench = Bench::new();
    assert_eq!(bench.wire(CONNECT_FRAME), [0, 0, 0, 0, 0, 1]);
    assert_eq!(bench.slot(), CONNECT_ANSWER);
    assert_eq!(bench.slot(), "-");
}

#[test]
fn case_2_synch() {
    let mut bench = Bench::new();
    bench.wire(CONNECT_FRAME);
    bench.slot();
    assert_eq!(bench.wire("9A 01 01 FC FE"), [0, 0, 0, 0, 1]);
    assert_eq!(bench.slot(), "9A 02 01 FE 00 01");
}

#[test]
fn case_3_sync_in_the_packet() {
    let mut bench = Bench::new();
    bench.cal[0] = 0x9A;
    bench.ask(CONNECT);
    bench.ask("F6 00 00 00 00 00 00 00");
    assert_eq!(bench.send("F5 01"), 1);
    assert_eq!(bench.slot(), "9A 02 02 FF 9B 01 9D");
}

#[test]
fn case_4_sync_as_ctr_and_checksum() {
    let mut bench = Bench::new();
    bench.ask(CONNECT);
    bench.until_ctr(0x9A);
    assert_eq!(bench.send("FE"), 1);
    assert_eq!(bench.slot(), "9A 01 9B 01 FF 9B 01");
}

#[test]
fn case_5_seed_and_calibration_key() {
    let mut bench = Bench::new();
    bench.ask(CONNECT);
    assert_eq!(bench.ask("F8 00 01"), "FF 04 21 20 04 00");
    assert_eq!(bench.ask("F7 04 00 7F F0 04"), "FF 04");
    assert_eq!(hex(&0x04F0_7F00u32.to_le_bytes()), "00 7F F0 04");
}

#[test]
fn case_6_lists_key() {
    let mut bench = Bench::new();
    bench.ask(CONNECT);
    assert_eq!(bench.ask("F8 00 04"), "FF 04 21 20 04 00");
    assert_eq!(bench.ask("F7 04 00 21 FA 04"), "FF 01");
    assert_eq!(hex(&0x04FA_2100u32.to_le_bytes()), "00 21 FA 04");
}

#[test]
fn case_7_sample_of_list_1() {
    let mut bench = Bench::new();
    bench.meas[0] = 0x64;
    bench.ask(CONNECT);
    bench.unlock(0x04);
    bench.allocate(&[[1, 1]; 4]);
    bench.run(1, 0, &[2], &[]);
    bench.until_ctr(9);
    assert_eq!(bench.event(0, 0x1234), 256);
    assert_eq!(bench.slot(), "9A 05 09 02 34 12 64 00 BA");
}

#[test]
fn case_8_download_at_the_end() {
    let mut bench = Bench::open();
    bench.good("F6 00 00 00 C2 0F 00 00");
    bench.good(&format!("F0 3E {}", rising(1, 62)));
    assert_eq!(bench.cal[4034..], bytes(&rising(1, 62)));
    assert!(bench.cal[..4034].iter().all(|b| *b == 0));
    bench.good("F6 00 00 00 C3 0F 00 00");
    bench.refused(&format!("F0 3E {}", rising(7, 62)), "FE 24");
}

#[test]
fn case_9_download_of_63() {
    let mut bench = Bench::open();
    bench.good("F6 00 00 00 00 00 00 00");
    bench.refused(&format!("F0 3F {}", rising(1, 62)), "FE 22");
}

#[test]
fn case_10_odt_0_of_61_and_62() {
    let mut bench = Bench::with_lists();
    bench.entries(0, 0, &sizes(61));
    bench.mode(0, 0);
    assert_eq!(bench.ask("DE 01 00 00"), "FF 00");
    bench.entries(2, 0, &sizes(62));
    bench.mode(2, 0);
    bench.refused("DE 01 02 00", "FE 2A");
}

#[test]
fn case_11_answers_and_lists_take_turns() {
    let mut bench = Bench::with_lists();
    for list in 0..4 {
        bench.run(list, 0, &[1], &[]);
    }
    // Serves list 3 last, as the case begins.
    assert_eq!(bench.event(0, 0), 4 * 256);
    for list in 0..4 {
        let packet = bytes(&bench.packet());
        assert_eq!(packet[0], 2 * list);
    }
    assert_eq!(bench.event(0, 0), 4 * 256);
    let mut order = Vec::new();
    for _ in 0..8 {
        // An answer waits before every slot: one is asked for as soon as none does.
        if !bench.slave.answer.waits() {
            assert_eq!(bench.send("FC"), 1);
        }
        order.push(match bench.packet().as_str() {
            "FE 00" => "A".to_string(),
            packet => (bytes(packet)[0] / 2).to_string(),
        });
    }
    assert_eq!(order.join(" "), "A 0 A 1 A 2 A 3");
}
