//! Each row of the command table: every check in its order, then what is done on success.
//! The packets of a row have all later faults too, so that each shows which check comes first.

use super::{alloc_daq, bytes, fresh, hex, rising, sizes, Bench, CONNECT};
use crate::lists::Pointer;
use crate::memory::{Extension, Mta};
use crate::session::Session;

const CONNECTED: &str = "FF 05 00 40 40 00 01 01";

/// A session with both resources locked.
fn locked() -> Bench {
    let mut bench = Bench::new();
    bench.ask(CONNECT);
    bench
}

fn at(address: u32) -> Mta {
    Mta::At(Extension::Calibration, address)
}

#[test]
fn without_a_session() {
    for packet in [
        "FF", "FF 01", "FF 01 00", "FE", "FD", "FC", "F0", "00", "DF", "FF FF",
    ] {
        let mut bench = Bench::new();
        let mut before = bench.slave.clone();
        assert_eq!(bench.send(packet), 2, "{}", packet);
        before.reader = bench.slave.reader.clone();
        assert_eq!(bench.slave, before, "{}", packet);
        assert_eq!(bench.slot(), "-");
    }
    let longest = format!("FF 00 {}", hex(&[0xFF; 62]));
    for packet in ["FF 00", "FF 00 01", &longest] {
        assert_eq!(Bench::new().ask(packet), CONNECTED);
    }
}

#[test]
fn unknown_codes() {
    for mut bench in [locked(), Bench::open()] {
        for packet in ["00", "BF", "C0", "CF", "DF", "EE 01 02", "FB"] {
            bench.refused(packet, "FE 20");
        }
        bench.refused(&hex(&[0xD2; 64]), "FE 20");
    }
}

#[test]
fn too_short() {
    // The fewest bytes of each command that needs more than its code, locked or not.
    let fewest = [
        (0xFF, 2),
        (0xF8, 3),
        (0xF7, 2),
        (0xF6, 8),
        (0xF5, 2),
        (0xF4, 8),
        (0xF3, 8),
        (0xF0, 2),
        (0xED, 8),
        (0xE3, 4),
        (0xE2, 6),
        (0xE1, 8),
        (0xE0, 8),
        (0xDE, 4),
        (0xDD, 2),
        (0xD5, 4),
        (0xD4, 5),
        (0xD3, 6),
    ];
    for mut bench in [locked(), Bench::open()] {
        for (code, fewest) in fewest {
            // The bytes that are there are out of range for most commands.
            let mut packet = vec![0xEE; fewest];
            packet[0] = code;
            bench.refused(&hex(&packet[..fewest - 1]), "FE 21");
            let answer = bench.ask(&hex(&packet));
            assert_ne!(answer, "FE 21", "{}", hex(&packet));
            assert_ne!(answer, "FE 20", "{}", hex(&packet));
        }
    }
}

#[test]
fn locked_lists_come_before_ranges() {
    let mut bench = locked();
    for packet in [
        "E3 00 09 00",
        "E2 00 09 00 09 09",
        "E1 00 09 09 00 00 00 00",
        "E0 00 09 00 09 00 09 09",
        "DE 09 09 00",
        "DD 09",
        "DA",
        "D9",
        "D6",
        "D5 00 00 00",
        "D5 00 01 00",
        "D4 00 09 00 00",
        "D3 00 09 00 09 00",
    ] {
        bench.refused(packet, "FE 25");
    }
    // The other lock does not matter.
    bench.unlock(0x01);
    bench.refused("DA", "FE 25");
}

#[test]
fn ff_connect() {
    let mut bench = Bench::with_lists();
    bench.good("F6 00 00 00 07 00 00 00");
    bench.run(0, 0, &[1], &[]);
    bench.entries(1, 1, &[2]);
    bench.ask("DE 02 01 00");
    bench.refused("FF", "FE 21");
    bench.refused("FF 01", "FE 22");
    bench.refused("FF FF", "FE 22");
    bench.event(0, 0);
    assert_eq!(bench.send("FF 00"), 1);
    assert_eq!(bench.slave.session, fresh());
    assert_eq!(bench.packet(), CONNECTED);
    assert_eq!(bench.packet(), "-");
    bench.seed(0x01);
    bench.ask(CONNECT);
    assert_eq!(bench.slave.session, fresh());
}

#[test]
fn fe_disconnect() {
    let mut bench = Bench::with_lists();
    bench.good("F6 00 00 00 07 00 00 00");
    bench.run(0, 0, &[1], &[]);
    bench.good("E2 00 00 00 00 00");
    bench.good("FE 01 02");
    assert_eq!(bench.slave.session, Session::closed());
    assert_eq!(bench.send("FE"), 2);
}

#[test]
fn fd_get_status() {
    let mut bench = locked();
    bench.told("FD", "FF 00 05 00 00 00");
    bench.unlock(0x04);
    bench.told("FD 01 02 03 04 05 06 07", "FF 00 01 00 00 00");
    bench.allocate(&[[1, 1]; 4]);
    bench.run(3, 1, &[1], &[]);
    bench.told("FD", "FF 40 01 00 00 00");
    bench.unlock(0x01);
    bench.told("FD", "FF 40 00 00 00 00");
    bench.ask("DE 00 03 00");
    bench.told("FD", "FF 00 00 00 00 00");
}

#[test]
fn fc_synch() {
    let mut bench = locked();
    bench.told("FC", "FE 00");
    bench.told("FC 01 02 03 04 05 06 07", "FE 00");
}

#[test]
fn f8_get_seed() {
    let mut bench = locked();
    bench.refused("F8 01", "FE 21");
    bench.refused("F8 01 00", "FE 29");
    bench.refused("F8 01 01", "FE 29");
    for packet in ["F8 02 01", "F8 FF 04", "F8 02 00"] {
        bench.refused(packet, "FE 22");
    }
    for packet in ["F8 00 00", "F8 00 02", "F8 00 05", "F8 00 FF"] {
        bench.refused(packet, "FE 22");
    }
    assert_eq!(bench.ask("F8 00 01 09 09"), "FF 04 21 20 04 00");
    assert_eq!(bench.ask("F7 04 00 7F F0 04"), "FF 04");
    // A seed out for the other resource stays good when an open one is asked for.
    bench.seed(0x04);
    bench.told("F8 00 01", "FF 00");
    bench.refused("F8 01 01", "FE 29");
    bench.refused("F8 02 01", "FE 22");
    assert!(bench.slave.session.seed.is_some());
}

#[test]
fn f7_unlock() {
    let mut bench = locked();
    bench.refused("F7", "FE 21");
    bench.refused("F7 05", "FE 29");
    bench.refused("F7 04 00 7F F0 04", "FE 29");
    assert_eq!(bench.ask("F8 00 01"), "FF 04 21 20 04 00");
    bench.refused("F7", "FE 21");
    for packet in ["F7 00", "F7 03 00 7F F0", "F7 05", "F7 05 00 7F F0 04 00"] {
        bench.refused(packet, "FE 22");
    }
    for packet in ["F7 04", "F7 04 FF", "F7 04 00 7F F0"] {
        bench.refused(packet, "FE 21");
    }
    let mut wrong = Bench::new();
    wrong.slave = bench.slave.clone();
    assert_eq!(bench.ask("F7 04 00 7F F0 04 55 55"), "FF 04");
    bench.refused("F7 04 00 7F F0 04", "FE 29");

    assert_eq!(wrong.send("F7 04 01 7F F0 04"), 1);
    assert_eq!(wrong.slave.session, Session::closed());
    assert_eq!(wrong.send(CONNECT), 6);
    assert_eq!(wrong.packet(), "FE 25");
    assert_eq!(wrong.send("FC"), 2);
}

#[test]
fn f6_set_mta() {
    let mut bench = locked();
    bench.refused("F6 00 00 02 00 00 00", "FE 21");
    bench.refused("F6 00 00 02 00 00 00 00", "FE 22");
    bench.refused("F6 00 00 FF 00 00 00 00", "FE 22");
    bench.good("F6 AA BB 01 78 56 34 12");
    assert_eq!(
        bench.slave.session.mta,
        Mta::At(Extension::Measured, 0x1234_5678)
    );
    bench.refused("F6 00 00 02 00 00 00 00", "FE 22");
    // An address outside is accepted here and refused at the access.
    bench.good("F6 00 00 00 FF FF FF FF");
    bench.refused("F5 01", "FE 24");
    bench.refused("F5 07", "FE 24");
}

#[test]
fn f5_upload() {
    let mut bench = locked();
    bench.refused("F5", "FE 21");
    bench.refused("F5 00", "FE 29");
    bench.refused("F5 40", "FE 29");
    bench.good("F6 00 00 00 00 10 00 00");
    bench.refused("F5 00", "FE 22");
    bench.refused("F5 40", "FE 22");
    bench.refused("F5 FF", "FE 22");
    bench.refused("F5 01", "FE 24");
    bench.refused("F5 3F", "FE 24");
    bench.good("F6 00 00 00 FA 0F 00 00");
    bench.refused("F5 07", "FE 24");
    bench.cal[4090..].copy_from_slice(&[1, 2, 3, 4, 5, 6]);
    assert_eq!(bench.ask("F5 02 99"), "FF 01 02");
    assert_eq!(bench.slave.session.mta, at(4092));
    assert_eq!(bench.ask("F5 04"), "FF 03 04 05 06");
    assert_eq!(bench.slave.session.mta, at(4096));
    bench.refused("F5 01", "FE 24");
    bench.meas[4033..].copy_from_slice(&bytes(&rising(7, 63)));
    bench.good("F6 00 00 01 C2 0F 00 00");
    bench.refused("F5 3F", "FE 24");
    bench.good("F6 00 00 01 C1 0F 00 00");
    assert_eq!(bench.ask("F5 3F"), format!("FF {}", rising(7, 63)));
    assert_eq!(bench.slave.session.mta, Mta::At(Extension::Measured, 4096));
}

#[test]
fn f4_short_upload() {
    let mut bench = locked();
    bench.refused("F4 00 00 02 00 10 00", "FE 21");
    bench.refused("F4 00 00 00 00 10 00 00", "FE 22");
    bench.refused("F4 40 00 00 00 10 00 00", "FE 22");
    bench.refused("F4 01 00 02 00 10 00 00", "FE 22");
    bench.refused("F4 00 00 07 00 00 00 00", "FE 22");
    bench.refused("F4 01 00 00 00 10 00 00", "FE 24");
    bench.refused("F4 3F 00 00 C2 0F 00 00", "FE 24");
    bench.refused("F4 01 00 00 FF FF FF FF", "FE 24");
    bench.cal[4095] = 9;
    bench.meas[1] = 8;
    assert_eq!(bench.slave.session.mta, Mta::Unset);
    assert_eq!(bench.ask("F4 01 AA 00 FF 0F 00 00"), "FF 09");
    assert_eq!(bench.slave.session.mta, at(4096));
    bench.refused("F4 07 00 00 FA 0F 00 00", "FE 24");
    assert_eq!(
        bench.ask("F4 07 00 01 00 00 00 00"),
        "FF 00 08 00 00 00 00 00"
    );
    assert_eq!(bench.slave.session.mta, Mta::At(Extension::Measured, 7));
    bench.cal[4033..].copy_from_slice(&bytes(&rising(7, 63)));
    assert_eq!(
        bench.ask("F4 3F 00 00 C1 0F 00 00"),
        format!("FF {}", rising(7, 63))
    );
    assert_eq!(bench.slave.session.mta, at(4096));
}

/// A long block by the short command and then the plain one, with a refusal and a question between.
#[test]
fn upload_goes_on_behind_a_short_upload() {
    let mut bench = locked();
    bench.meas[0x20..0x2C].copy_from_slice(&[1, 2, 3, 4, 5, 6, 7, 8, 9, 10, 11, 12]);
    assert_eq!(bench.ask("F4 03 00 01 20 00 00 00"), "FF 01 02 03");
    assert_eq!(bench.ask("F5 07"), "FF 04 05 06 07 08 09 0A");
    bench.refused("F4 03 00 01 FF 0F 00 00", "FE 24");
    bench.told("FD", "FF 00 05 00 00 00");
    assert_eq!(bench.ask("F5 02"), "FF 0B 0C");
}

#[test]
fn f3_build_checksum() {
    const SIZE: &str = "FE 22 00 00 00 10 00 00";
    let mut bench = locked();
    bench.refused("F3 00 00 00 00 00 00", "FE 21");
    bench.refused("F3 00 00 00 00 00 00 00", "FE 29");
    bench.good("F6 00 00 00 01 00 00 00");
    bench.refused("F3 00 00 00 00 00 00 00", SIZE);
    bench.refused("F3 00 00 00 01 10 00 00", SIZE);
    bench.refused("F3 00 00 00 01 00 00 80", SIZE);
    bench.refused("F3 00 00 00 00 10 00 00", "FE 24");
    bench.cal.iter_mut().for_each(|byte| *byte = 0xFF);
    assert_eq!(
        bench.ask("F3 AA BB CC 02 00 00 00"),
        "FF 02 00 00 FE 01 00 00"
    );
    assert_eq!(bench.slave.session.mta, at(3));
    bench.good("F6 00 00 00 00 00 00 00");
    assert_eq!(
        bench.ask("F3 00 00 00 00 10 00 00"),
        "FF 02 00 00 00 F0 00 00"
    );
    assert_eq!(bench.slave.session.mta, at(4096));
    bench.refused("F3 00 00 00 01 00 00 00", "FE 24");
}

#[test]
fn f0_download() {
    let mut bench = locked();
    bench.refused("F0", "FE 21");
    bench.refused("F0 3F", "FE 25");
    bench.unlock(0x04);
    bench.refused("F0 3F", "FE 25");
    bench.unlock(0x01);
    bench.refused("F0 3F", "FE 29");
    bench.good("F6 00 00 01 00 10 00 00");
    let whole = format!("F0 3F {}", rising(1, 62));
    for packet in ["F0 00", "F0 3F 01 02", "F0 FF", &whole] {
        bench.refused(packet, "FE 22");
    }
    let cut = format!("F0 3E {}", rising(1, 61));
    for packet in ["F0 01", "F0 06 01 02 03 04 05", "F0 02 01", &cut] {
        bench.refused(packet, "FE 21");
    }
    bench.refused("F0 01 55", "FE 23");
    bench.refused(&format!("F0 3E {}", rising(1, 62)), "FE 23");
    bench.good("F6 00 00 00 00 10 00 00");
    bench.refused("F0 01 55", "FE 24");
    bench.good("F6 00 00 00 10 00 00 00");
    bench.good("F0 02 0A 0B 0C 0D");
    assert_eq!(bench.slave.session.mta, at(18));
    bench.good("F0 06 9A 9B 01 02 03 04");
    let mut expected = vec![0; 4096];
    expected[16..24].copy_from_slice(&[0x0A, 0x0B, 0x9A, 0x9B, 1, 2, 3, 4]);
    assert_eq!(bench.cal, expected);
    assert_eq!(bench.ask("F4 03 00 00 11 00 00 00"), "FF 0B 9A 9B");
}

/// The packet with its header and so many bytes of data.
fn short_download(count: u8, extension: u8, address: u16, data: u8) -> String {
    let at = hex(&address.to_le_bytes());
    let head = format!("ED {:02X} 00 {:02X} {} 00 00", count, extension, at);
    format!("{} {}", head, rising(1, data))
}

#[test]
fn ed_short_download() {
    let mut bench = locked();
    // Everything is wrong; then what was judged first is right, and so on.
    for packet in ["ED", "ED 39", "ED 39 00 02 00 10 00"] {
        bench.refused(packet, "FE 21");
    }
    bench.refused("ED 39 00 02 00 10 00 00", "FE 25");
    bench.unlock(0x04);
    bench.refused(&short_download(1, 0, 0, 1), "FE 25");
    bench.unlock(0x01);
    bench.refused("ED 39", "FE 21");
    for count in [0, 57, 255] {
        bench.refused(&short_download(count, 2, 4096, 0), "FE 22");
        bench.refused(&short_download(count, 0, 0, 56), "FE 22");
    }
    for extension in [2, 255] {
        bench.refused(&short_download(56, extension, 4096, 55), "FE 22");
        bench.refused(&short_download(1, extension, 0, 1), "FE 22");
    }
    for count in [1, 56] {
        bench.refused(&short_download(count, 1, 4096, count - 1), "FE 21");
        bench.refused(&short_download(count, 1, 4096, count), "FE 23");
        bench.refused(&short_download(count, 1, 0, 56), "FE 23");
        bench.refused(&short_download(count, 0, 4096, count), "FE 24");
        bench.refused(
            &short_download(count, 0, 4097 - u16::from(count), 56),
            "FE 24",
        );
    }
    bench.refused("ED 01 00 00 FF FF FF FF 55", "FE 24");
    bench.refused("ED 01 00 00 00 00 01 00 55", "FE 24");
    assert_eq!(bench.slave.session.mta, Mta::Unset);
}

#[test]
fn ed_short_download_done() {
    for count in [1, 56u8] {
        for first in [0, 4096 - u16::from(count)] {
            // Reserved is ignored, and so is data beyond the count.
            let mut bench = Bench::open();
            let packet = short_download(count, 0, first, 56).replacen(" 00 ", " AA ", 1);
            bench.good(&packet);
            let (first, end) = (usize::from(first), usize::from(first) + usize::from(count));
            let mut expected = vec![0; 4096];
            expected[first..end].copy_from_slice(&bytes(&rising(1, count)));
            assert_eq!(bench.cal, expected);
            assert!(bench.meas.iter().all(|b| *b == 0));
            assert_eq!(bench.slave.session.mta, at(end as u32));
        }
    }
}

/// Whatever the address was before, it is behind the block, and UPLOAD or DOWNLOAD goes on there.
#[test]
fn ed_short_download_sets_the_address() {
    let mut bench = Bench::open();
    bench.good(&short_download(3, 0, 16, 3));
    bench.good("F0 02 0A 0B");
    assert_eq!(bench.slave.session.mta, at(21));
    bench.good("F6 00 00 01 00 0F 00 00");
    bench.good(&short_download(2, 0, 21, 2));
    assert_eq!(bench.slave.session.mta, at(23));
    // A refused one leaves it.
    bench.refused(&short_download(1, 0, 4096, 1), "FE 24");
    bench.refused(&short_download(2, 0, 0, 1), "FE 21");
    bench.good("F0 01 0C");
    assert_eq!(
        bench.ask("F4 08 00 00 10 00 00 00"),
        "FF 01 02 03 0A 0B 01 02 0C"
    );
    bench.good("F6 00 00 00 0F 00 00 00");
    assert_eq!(bench.ask("F5 0A"), "FF 00 01 02 03 0A 0B 01 02 0C 00");
    bench.cal = vec![0; 20];
    bench.refused(&short_download(3, 0, 18, 3), "FE 24");
    bench.good(&short_download(3, 0, 17, 3));
    assert_eq!(bench.cal[16..], [0, 1, 2, 3]);
}

#[test]
fn memories_are_judged_at_each_call() {
    let mut bench = Bench::open();
    bench.good("F6 00 00 00 04 00 00 00");
    bench.cal = vec![0; 5];
    bench.refused("F0 02 01 02", "FE 24");
    bench.cal = Vec::new();
    bench.refused("F0 01 01", "FE 24");
    bench.refused("F4 01 00 00 00 00 00 00", "FE 24");
    bench.cal = vec![0; 5000];
    bench.good("F0 02 01 02");
    bench.good("F6 00 00 00 FF 0F 00 00");
    bench.refused("F0 02 01 02", "FE 24");
    bench.good("F0 01 01");
    bench.refused("F0 01 01", "FE 24");
    bench.refused("F5 01", "FE 24");
}

#[test]
fn e3_clear_daq_list() {
    let mut bench = Bench::with_lists();
    let cleared = bench.slave.session.pool.clone();
    bench.run(0, 0, &[1], &[]);
    bench.refused("E3 00 04", "FE 21");
    for packet in ["E3 00 04 00", "E3 00 00 01", "E3 00 FF FF"] {
        bench.refused(packet, "FE 22");
    }
    bench.refused("E3 00 00 00", "FE 11");
    bench.ask("DE 00 00 00");
    bench.ask("DE 02 00 00");
    bench.good("E2 00 00 00 01 02");
    let pointer = bench.slave.session.pointer;
    bench.good("E3 AA 00 00 99");
    // Its entries are empty, not gone.
    assert_eq!(bench.slave.session.pool, cleared);
    assert_eq!(bench.slave.session.pointer, pointer);
    bench.refused("DE 01 00 00", "FE 2A");
}

#[test]
fn e2_set_daq_ptr() {
    let mut bench = Bench::with_lists();
    bench.refused("E2 00 04 00 02", "FE 21");
    for packet in [
        "E2 00 04 00 00 00",
        "E2 00 00 01 00 00",
        "E2 00 00 00 02 00",
        "E2 00 00 00 00 10",
        "E2 00 00 00 01 FF",
    ] {
        bench.refused(packet, "FE 22");
    }
    bench.good("E2 AA 03 00 01 0F");
    let pointer = Pointer::At {
        list: 3,
        odt: 1,
        entry: 15,
    };
    assert_eq!(bench.slave.session.pointer, pointer);
    bench.refused("E2 00 04 00 00 00", "FE 22");
    // A running list may be pointed at.
    bench.run(0, 0, &[1], &[]);
    bench.good("E2 00 00 00 00 00");
}

#[test]
fn e1_write_daq() {
    let mut bench = Bench::with_lists();
    bench.refused("E1 00 05 02 00 10 00", "FE 21");
    bench.refused("E1 00 05 02 00 10 00 00", "FE 29");
    bench.run(0, 0, &[1], &[]);
    bench.good("E2 00 00 00 00 00");
    // The list runs and the block is outside in all of these.
    for packet in [
        "E1 00 01 00 00 10 00 00",
        "E1 1F 01 00 00 10 00 00",
        "E1 FF 05 00 00 10 00 00",
        "E1 FF 01 02 00 10 00 00",
        "E1 FF 00 02 00 00 00 00",
    ] {
        bench.refused(packet, "FE 22");
    }
    bench.refused("E1 FF 01 00 00 10 00 00", "FE 11");
    bench.refused("E1 FF 00 00 00 00 00 00", "FE 11");
    bench.ask("DE 00 00 00");
    bench.refused("E1 FF 01 00 00 10 00 00", "FE 24");
    bench.refused("E1 FF 04 01 FD 0F 00 00", "FE 24");
    bench.refused("E1 FF 04 01 FE FF FF FF", "FE 24");
    bench.meas = vec![0; 5000];
    bench.refused("E1 FF 04 01 FD 0F 00 00", "FE 24");
    // Sixteen entries, then the pointer is unset; size 0 takes any address.
    bench.good("E1 FF 04 01 FC 0F 00 00");
    for _ in 1..15 {
        bench.good("E1 FF 00 01 FF FF FF FF");
    }
    bench.good("E1 FF 01 00 00 00 00 00");
    assert_eq!(bench.slave.session.pointer, Pointer::Unset);
    bench.refused("E1 FF 01 00 00 00 00 00", "FE 29");
    bench.meas[4092..4096].copy_from_slice(&[1, 2, 3, 4]);
    bench.cal[0] = 5;
    bench.ask("DE 01 00 00");
    bench.event(0, 0);
    assert_eq!(bench.packet(), "00 00 00 01 02 03 04 05");
}

#[test]
fn e0_set_daq_list_mode() {
    let mut bench = Bench::with_lists();
    bench.run(0, 0, &[1], &[]);
    bench.refused("E0 00 04 00 02 00 00", "FE 21");
    // List 0 runs in those that name it.
    for packet in [
        "E0 00 00 00 00 00 01 00",
        "E0 30 00 00 00 00 01 00",
        "E0 12 00 00 00 00 01 00",
        "E0 10 04 00 00 00 01 00",
        "E0 10 00 01 00 00 01 00",
        "E0 10 00 00 02 00 01 00",
        "E0 10 00 00 00 01 01 00",
        "E0 10 00 00 00 00 00 00",
        "E0 10 00 00 00 00 02 00",
        "E0 10 00 00 00 00 01 01",
    ] {
        bench.refused(packet, "FE 22");
    }
    bench.refused("E0 10 00 00 00 00 01 00", "FE 11");
    bench.ask("DE 00 00 00");
    bench.ask("DE 02 00 00");
    bench.good("E0 10 00 00 01 00 01 00");
    assert!(bench.slave.session.pool.lists()[0].selected);
    bench.good("DD 01");
    assert_eq!(bench.event(0, 0), 0);
    assert_eq!(bench.event(1, 0), 256);
}

#[test]
fn de_start_stop_daq_list() {
    let mut bench = Bench::with_lists();
    bench.refused("DE 03 04", "FE 21");
    for packet in ["DE 03 00 00", "DE FF 00 00", "DE 01 04 00", "DE 00 00 01"] {
        bench.refused(packet, "FE 22");
    }
    // Unfit: no mode; no entry; too many bytes in ODT 0; too many in ODT 1.
    bench.entries(1, 0, &[1]);
    bench.refused("DE 01 01 00", "FE 2A");
    bench.mode(2, 0);
    bench.refused("DE 01 02 00", "FE 2A");
    bench.entries(2, 0, &[0, 0, 0, 0]);
    bench.refused("DE 01 02 00", "FE 2A");
    bench.entries(2, 0, &sizes(62));
    bench.refused("DE 01 02 00", "FE 2A");
    bench.entries(2, 0, &sizes(61));
    bench.entries(2, 1, &sizes(64));
    bench.refused("DE 01 02 00", "FE 2A");
    bench.entries(2, 1, &sizes(63));
    assert_eq!(bench.ask("DE 01 02 00 77"), "FF 04");
    assert_eq!(bench.event(0, 0), 256);
    // Starting it again changes nothing: its packets stay.
    let before = bench.slave.session.clone();
    assert_eq!(bench.send("DE 01 02 00"), 1);
    assert_eq!(bench.slave.session, before);
    while bench.packet() != "-" {}
    // Selecting needs neither mode nor entry, and a start leaves the selection.
    assert_eq!(bench.ask("DE 02 03 00"), "FF 06");
    assert_eq!(bench.ask("DE 02 02 00"), "FF 04");
    assert_eq!(bench.ask("DE 00 02 00"), "FF 04");
    assert_eq!(bench.ask("DE 01 02 00"), "FF 04");
    assert!(bench.slave.session.pool.lists()[2].selected);
    assert!(bench.slave.session.pool.lists()[3].selected);
    // Stopping a stopped list is done too.
    assert_eq!(bench.ask("DE 00 00 00"), "FF 00");
}

/// A digit for each list.
fn running(bench: &Bench) -> String {
    let lists = bench.slave.session.pool.lists().iter();
    lists.map(|l| if l.runs() { '1' } else { '0' }).collect()
}

fn any_selected(bench: &Bench) -> bool {
    bench.slave.session.pool.lists().iter().any(|l| l.selected)
}

#[test]
fn dd_start_stop_synch() {
    let mut bench = Bench::with_lists();
    bench.refused("DD", "FE 21");
    bench.refused("DD 03", "FE 22");
    bench.told("DD 01", "FF");
    bench.run(0, 0, &[1], &[]);
    bench.entries(1, 0, &[1]);
    bench.mode(1, 0);
    for list in ["00", "01", "02"] {
        bench.ask(&format!("DE 02 {} 00", list));
    }
    // Range before fitness; then all or none, and the selection stays.
    bench.refused("DD 03", "FE 22");
    bench.refused("DD 01", "FE 2A");
    assert_eq!(running(&bench), "1000");
    bench.entries(2, 1, &[1]);
    bench.mode(2, 1);
    bench.event(0, 7);
    assert_eq!(bench.send("DD 01"), 1);
    // The one that ran before keeps its packet.
    assert_eq!(bench.packet(), "00 07 00 00");
    assert_eq!(bench.packet(), "FF");
    assert_eq!(running(&bench), "1110");
    assert!(!any_selected(&bench));
}

#[test]
fn dd_stops_the_selected_or_all() {
    let mut bench = Bench::with_lists();
    for list in 0..3 {
        bench.run(list, 0, &[1], &[]);
    }
    bench.ask("DE 02 01 00");
    bench.ask("DE 02 03 00");
    bench.good("DD 02");
    assert_eq!(running(&bench), "1010");
    assert!(!any_selected(&bench));

    bench.ask("DE 02 03 00");
    bench.good("DD 00 55");
    assert_eq!(running(&bench), "0000");
    assert!(!any_selected(&bench));
}

#[test]
fn da_and_d9_information() {
    let mut bench = Bench::open();
    bench.told("DA", "FF 11 00 00 02 00 00 00");
    bench.told("D9", "FF 01 04 00 00 6A 01 00");
    bench.told("DA 01 02", "FF 11 00 00 02 00 00 00");
    bench.told("D9 01 02", "FF 01 04 00 00 6A 01 00");
    for count in [1, 8] {
        bench.good("D6");
        bench.told("DA", "FF 11 00 00 02 00 00 00");
        bench.good(&alloc_daq(count));
        bench.told("DA", &format!("FF 11 {:02X} 00 02 00 00 00", count));
    }
}
