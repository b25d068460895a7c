//! FREE_DAQ, ALLOC_DAQ, ALLOC_ODT and ALLOC_ODT_ENTRY: each check in its order, then what is done;
//! and the lists that they make.

use super::{alloc_daq, alloc_entry, alloc_odt, bytes, hex, rising, Bench, CONNECT};
use crate::lists::Pointer;
use crate::memory::{Extension, Mta};

/// What the tool may have done so far.
#[derive(Clone, Copy, Debug, PartialEq)]
enum Done {
    Nothing,
    Freed,
    Lists,
    Odts,
    Entries,
}

const ALL: [Done; 5] = [
    Done::Nothing,
    Done::Freed,
    Done::Lists,
    Done::Odts,
    Done::Entries,
];

/// Three lists at most, of which list 1 has two ODTs, the second with four entries.
fn after(done: Done) -> Bench {
    let mut bench = Bench::open();
    let packets = ["D6", "D5 00 03 00", "D4 00 01 00 02", "D3 00 01 00 01 04"];
    for packet in &packets[..done as usize] {
        bench.good(packet);
    }
    bench
}

fn filled() -> Bench {
    let mut bench = Bench::open();
    for (i, byte) in bench.meas.iter_mut().enumerate() {
        *byte = (i as u8).wrapping_add(1);
    }
    bench
}

#[test]
fn the_layouts_of_the_examples() {
    let mut bench = Bench::open();
    for packet in ["D6", "D5 AA 01 00", "D4 AA 00 00 01", "D3 AA 00 00 00 02"] {
        bench.good(packet);
    }
    bench.good("E2 00 00 00 00 01");
    bench.refused("E2 00 00 00 00 02", "FE 22");
    // More bytes are ignored.
    let more = hex(&[0xFF; 58]);
    for packet in ["D6", "D5 00 01 00", "D4 00 00 00 01", "D3 00 00 00 00 02"] {
        bench.good(&format!("{} {}", packet, more));
    }
}

#[test]
fn d6_free_daq_whatever_was_done() {
    for done in ALL {
        let mut bench = after(done);
        bench.good("D6");
        bench.told("DA", "FF 11 00 00 02 00 00 00");
        bench.told("D6", "FF");
        assert_eq!(bench.slave.session, after(Done::Freed).slave.session);
        // The whole pool is there again, however much of it was taken.
        bench.allocate(&[[128]]);
        bench.allocate(&[[8; 16]]);
        bench.allocate(&[[8, 8]; 8]);
        bench.allocate(&[[16, 16]; 4]);
    }
}

#[test]
fn d6_free_daq_of_lists_that_run() {
    let mut bench = filled();
    bench.allocate(&[[2, 2], [2, 2]]);
    bench.good("F6 00 00 01 07 00 00 00");
    bench.run(0, 0, &[1], &[1]);
    bench.run(1, 0, &[1], &[1]);
    bench.ask("DE 02 01 00");
    bench.good("E2 00 01 00 00 00");
    assert_eq!(bench.event(0, 5), 2 * 256);
    assert_eq!(bench.packet(), "00 05 00 01");
    bench.told("FD", "FF 40 00 00 00 00");
    // That answer was no list's, so the rest of the samples would be next.
    assert_eq!(bench.send("D6"), 1);
    assert_eq!(bench.slave.session.pointer, Pointer::Unset);
    assert_eq!(bench.packet(), "FF");
    assert_eq!(bench.packet(), "-");
    bench.told("FD", "FF 00 00 00 00 00");
    assert_eq!(bench.event(0, 6), 0);
    bench.refused("E1 FF 01 01 00 00 00 00", "FE 29");
    // Lists as large as before have nothing of those.
    bench.allocate(&[[2, 2], [2, 2]]);
    assert_eq!(bench.event(0, 7), 0);
    assert_eq!(bench.packet(), "-");
    bench.good("DD 01");
    bench.told("FD", "FF 00 00 00 00 00");
    bench.refused("DE 01 00 00", "FE 2A");
    bench.mode(0, 0);
    bench.refused("DE 01 00 00", "FE 2A");
    bench.entries(1, 1, &[1]);
    bench.refused("DE 01 01 00", "FE 2A");
}

/// What the paper does not name stays.
#[test]
fn d6_free_daq_leaves_all_else() {
    let mut bench = Bench::new();
    bench.ask(CONNECT);
    bench.unlock(0x04);
    bench.good("F6 00 00 01 34 12 00 00");
    bench.seed(0x01);
    bench.until_ctr(0x55);
    let before = bench.slave.clone();
    let memories = (bench.cal.clone(), bench.meas.clone());
    assert_eq!(bench.send("D6"), 1);
    let now = &bench.slave;
    assert_eq!(now.session.mta, Mta::At(Extension::Measured, 0x1234));
    assert_eq!(now.session.seed, before.session.seed);
    assert_eq!(now.session.locked_mask(), 0x01);
    assert_eq!(now.generator, before.generator);
    assert_eq!(now.last_was_answer, before.last_was_answer);
    assert_eq!(now.ctr, 0x55);
    assert_eq!((&bench.cal, &bench.meas), (&memories.0, &memories.1));
    assert_eq!(bench.packet(), "FF");
    // The last frame was a list's, so an answer goes first; then it was an answer.
    for sample_last in [true, false] {
        let mut bench = filled();
        bench.allocate(&[[1]]);
        bench.entries(0, 0, &[1]);
        bench.mode(0, 0);
        bench.starts(0, 0);
        bench.event(0, 0);
        if sample_last {
            bench.packet();
        }
        bench.send("D6");
        assert_eq!(bench.slave.last_was_answer, !sample_last);
        assert_eq!(bench.packet(), "FF");
    }
}

#[test]
fn d5_alloc_daq() {
    let mut bench = after(Done::Freed);
    bench.refused("D5 00 09", "FE 21");
    bench.refused(&alloc_daq(0), "FE 22");
    for count in [9, 256, 65_535] {
        bench.refused(&alloc_daq(count), "FE 30");
    }
    bench.good(&alloc_daq(8));
    let lists = bench.slave.session.pool.lists();
    assert_eq!(lists.len(), 8);
    assert!(lists.iter().all(|l| l.odts().is_empty() && !l.runs()));
    assert!(lists.iter().all(|l| l.event.is_none() && !l.selected));
    // A list without ODTs may be pointed into by nothing, and not started.
    bench.refused("E2 00 07 00 00 00", "FE 22");
    bench.mode(7, 0);
    bench.refused("DE 01 07 00", "FE 2A");
    bench.refused("E0 10 08 00 00 00 01 00", "FE 22");
    bench.refused(&alloc_daq(1), "FE 29");
}

#[test]
fn d4_alloc_odt() {
    let mut bench = after(Done::Lists);
    bench.refused("D4 00 03 00", "FE 21");
    for list in [3, 256] {
        for count in [0, 1, 17] {
            bench.refused(&alloc_odt(list, count), "FE 22");
        }
    }
    bench.refused(&alloc_odt(0, 0), "FE 22");
    bench.refused(&alloc_odt(0, 17), "FE 30");
    bench.good(&alloc_odt(1, 11));
    // 6 would have been good before, and 245 would be good modulo 256.
    for count in [6, 245, 255] {
        bench.refused(&alloc_odt(2, count), "FE 30");
    }
    bench.good(&alloc_odt(2, 5));
    bench.refused(&alloc_odt(0, 1), "FE 30");
    bench.refused(&alloc_odt(0, 0), "FE 22");
    bench.refused(&alloc_odt(3, 1), "FE 22");
    bench.refused(&alloc_odt(2, 1), "FE 29");
    bench.good("D6");
    bench.good(&alloc_daq(1));
    bench.good(&alloc_odt(0, 16));
}

#[test]
fn d3_alloc_odt_entry() {
    let mut bench = after(Done::Odts);
    bench.refused("D3 00 03 00 02", "FE 21");
    for (list, odt) in [(0, 0), (1, 2), (3, 0), (257, 1)] {
        for count in [0, 1, 129] {
            bench.refused(&alloc_entry(list, odt, count), "FE 22");
        }
    }
    bench.refused(&alloc_entry(1, 0, 0), "FE 22");
    bench.refused(&alloc_entry(1, 0, 129), "FE 30");
    bench.good(&alloc_entry(1, 1, 100));
    // 156 and more would be good modulo 256.
    for count in [29, 156, 255] {
        bench.refused(&alloc_entry(1, 0, count), "FE 30");
    }
    bench.good(&alloc_entry(1, 0, 28));
    bench.refused(&alloc_entry(1, 0, 1), "FE 29");
    bench.good("D6");
    bench.good(&alloc_daq(3));
    bench.good(&alloc_odt(1, 2));
    bench.good(&alloc_entry(1, 0, 128));
    bench.refused(&alloc_entry(1, 1, 1), "FE 30");
    bench.refused(&alloc_entry(1, 1, 0), "FE 22");
    bench.refused(&alloc_entry(2, 0, 1), "FE 22");
}

/// One ALLOC_ODT_ENTRY shuts out every ALLOC_ODT, also for lists that have none.
#[test]
fn the_order_is_that_of_all_lists_together() {
    let mut bench = after(Done::Odts);
    bench.good(&alloc_odt(2, 1));
    bench.good(&alloc_entry(2, 0, 1));
    for list in 0..4 {
        bench.refused(&alloc_odt(list, 1), "FE 29");
    }
    bench.good(&alloc_entry(1, 0, 1));
    bench.refused(&alloc_daq(1), "FE 29");
}

/// How far the tool has come stays too: the next step is good after any refusal.
#[test]
fn a_refused_allocation_changes_nothing() {
    let mut bench = after(Done::Freed);
    for (packet, answer) in [
        ("D5 00 00 00", "FE 22"),
        ("D5 00 09 00", "FE 30"),
        ("D4 00 00 00 01", "FE 29"),
        ("D3 00 00 00 00 01", "FE 29"),
    ] {
        bench.refused(packet, answer);
    }
    bench.good("D5 00 02 00");
    for (packet, answer) in [
        ("D5 00 02 00", "FE 29"),
        ("D4 00 00 00 00", "FE 22"),
        ("D4 00 02 00 01", "FE 22"),
        ("D4 00 00 00 11", "FE 30"),
        ("D3 00 00 00 00 01", "FE 29"),
    ] {
        bench.refused(packet, answer);
    }
    bench.good("D4 00 00 00 01");
    for (packet, answer) in [
        ("D3 00 00 00 00 00", "FE 22"),
        ("D3 00 00 00 01 01", "FE 22"),
        ("D3 00 00 00 00 81", "FE 30"),
        ("D4 00 00 00 01", "FE 29"),
    ] {
        bench.refused(packet, answer);
    }
    bench.good("D4 00 01 00 01");
    bench.good("D3 00 00 00 00 01");
}

/// Of a running list only an ODT without entries shows that it runs.
#[test]
fn a_running_list() {
    let mut bench = filled();
    bench.good("D6");
    bench.good(&alloc_daq(2));
    bench.good(&alloc_odt(0, 3));
    bench.good(&alloc_odt(1, 1));
    bench.good(&alloc_entry(0, 1, 1));
    bench.entries(0, 1, &[1]);
    bench.mode(0, 0);
    bench.starts(0, 0);
    bench.refused(&alloc_odt(0, 1), "FE 29");
    bench.refused(&alloc_entry(0, 1, 1), "FE 29");
    bench.refused(&alloc_entry(0, 1, 0), "FE 29");
    bench.refused(&alloc_entry(0, 0, 0), "FE 22");
    bench.refused(&alloc_entry(0, 3, 1), "FE 22");
    for count in [1, 127, 128, 255] {
        bench.refused(&alloc_entry(0, 0, count), "FE 11");
        bench.refused(&alloc_entry(0, 2, count), "FE 11");
    }
    bench.refused(&alloc_entry(1, 0, 128), "FE 30");
    bench.good(&alloc_entry(1, 0, 127));
    bench.ask("DE 00 00 00");
    bench.refused(&alloc_entry(0, 0, 1), "FE 30");
    bench.good("E3 00 00 00");
    bench.refused(&alloc_entry(0, 1, 1), "FE 29");
}

/// Nothing but the pool limits the entries of an ODT.
#[test]
fn all_entries_in_one_odt() {
    let mut bench = filled();
    bench.allocate(&[[128]]);
    bench.refused("E2 00 00 00 00 80", "FE 22");
    bench.refused("E2 00 00 00 00 FF", "FE 22");
    bench.refused("E2 00 00 00 01 00", "FE 22");
    bench.good("E2 00 00 00 00 00");
    for entry in 0..128u32 {
        let pointer = Pointer::At {
            list: 0,
            odt: 0,
            entry: entry as usize,
        };
        assert_eq!(bench.slave.session.pointer, pointer);
        // Every second of the last 122 has a byte: that of its number.
        let size = u32::from(entry >= 6 && entry % 2 == 0);
        bench.good(&format!("E1 FF {:02X} 01 {:02X} 00 00 00", size, entry));
    }
    assert_eq!(bench.slave.session.pointer, Pointer::Unset);
    bench.refused("E1 FF 01 01 00 00 00 00", "FE 29");
    bench.mode(0, 1);
    bench.starts(0, 0);
    bench.event(1, 0x0201);
    let expected: Vec<u8> = (0..61).map(|i| 7 + 2 * i).collect();
    assert_eq!(bench.packet(), format!("00 01 02 {}", hex(&expected)));
    assert_eq!(bench.packet(), "-");
    bench.ask("DE 00 00 00");
    bench.good("E2 00 00 00 00 7F");
    bench.good("E1 FF 01 01 00 00 00 00");
    bench.refused("DE 01 00 00", "FE 2A");
}

/// Lists without ODTs, ODTs without entries, entries without bytes.
#[test]
fn what_has_nothing_sends_nothing() {
    let mut bench = filled();
    // List 1 has no ODTs; of list 2 the ODTs 1 and 3 have no entries, and ODT 4 will have no bytes.
    bench.allocate(&[&[1][..], &[], &[1, 0, 2, 0, 1, 1]]);
    for list in 0..3 {
        bench.mode(list, 0);
    }
    bench.refused("E2 00 01 00 00 00", "FE 22");
    bench.refused("E2 00 02 00 01 00", "FE 22");
    bench.refused("E2 00 02 00 06 00", "FE 22");
    bench.refused("DE 01 01 00", "FE 2A");
    bench.refused("DE 01 02 00", "FE 2A");
    bench.entries(2, 2, &[0, 2]);
    bench.entries(2, 5, &[3]);
    bench.starts(2, 1);
    assert_eq!(bench.event(0, 0x0403), 256);
    // The first says number and clock without a byte of its own; of the others only two are there.
    for packet in ["01 03 04", "03 01 02", "06 01 02 03", "-"] {
        assert_eq!(bench.packet(), packet);
    }
    // With bytes in the first ODT alone, one packet is the whole sample.
    bench.entries(0, 0, &[1]);
    bench.starts(0, 0);
    assert_eq!(bench.event(0, 0), 2 * 256);
    for packet in ["00 00 00 01", "01 00 00", "03 01 02", "06 01 02 03", "-"] {
        assert_eq!(bench.packet(), packet);
    }
}

/// The ODTs of the lists before, as far as they are allocated by then.
#[test]
fn first_numbers_follow_list_order() {
    let mut bench = after(Done::Freed);
    bench.good(&alloc_daq(5));
    let told = |bench: &mut Bench, numbers: [u8; 5]| {
        for (list, number) in numbers.iter().enumerate() {
            let answer = bench.ask(&format!("DE 02 {:02X} 00", list));
            assert_eq!(answer, format!("FF {:02X}", number));
            assert_eq!(bench.ask(&format!("DE 00 {:02X} 00", list)), answer);
        }
    };
    told(&mut bench, [0; 5]);
    for (list, count, numbers) in [
        (3, 2, [0, 0, 0, 0, 2]),
        (1, 3, [0, 0, 3, 3, 5]),
        (0, 4, [0, 4, 7, 7, 9]),
        (2, 7, [0, 4, 7, 14, 16]),
    ] {
        bench.good(&alloc_odt(list, count));
        told(&mut bench, numbers);
    }
    for odt in 0..7 {
        bench.good(&alloc_entry(2, odt, 2));
        told(&mut bench, [0, 4, 7, 14, 16]);
    }
}

/// Entries may be allocated in any order, also while another list runs: all that is there stays.
#[test]
fn entries_in_any_order_while_a_list_runs() {
    let mut bench = filled();
    bench.good("D6");
    bench.good(&alloc_daq(3));
    for list in 0..3 {
        bench.good(&alloc_odt(list, 2));
    }
    bench.good(&alloc_entry(1, 1, 3));
    bench.entries(1, 1, &[1, 2, 3]);
    bench.mode(1, 0);
    bench.starts(1, 2);
    bench.good("E2 00 01 00 01 01");
    let pointer = bench.slave.session.pointer;
    let mut left = 125;
    for (list, odt, count) in [(2, 1, 5), (0, 1, 40), (2, 0, 1), (0, 0, 79)] {
        bench.told("FC", "FE 00");
        assert_eq!(bench.event(0, 7), 256);
        assert_eq!(bench.send(&alloc_entry(list, odt, count)), 1);
        left -= usize::from(count);
        assert_eq!(bench.slave.session.pool.entries_left(), left);
        for packet in ["02 07 00", "FF", "03 01 02 03 04 05 06"] {
            assert_eq!(bench.packet(), packet);
        }
    }
    assert_eq!(bench.slave.session.pointer, pointer);
    bench.refused("E1 FF 01 01 00 00 00 00", "FE 11");
    bench.ask("DE 00 01 00");
    bench.good("E1 FF 01 01 10 00 00 00");
    bench.starts(1, 2);
    bench.entries(0, 0, &[1; 61]);
    bench.entries(2, 1, &[4, 3, 2, 1]);
    for list in [0, 2] {
        bench.mode(list, 0);
        bench.starts(list, 2 * list);
    }
    assert_eq!(bench.event(0, 0), 3 * 256);
    let expected = format!("00 00 00 {}", rising(1, 61));
    for packet in [
        "04 00 00",
        &expected,
        "02 00 00",
        "05 01 02 03 04 05 06 07 08 09 0A",
    ] {
        assert_eq!(bench.packet(), packet);
    }
    assert_eq!(bench.packet(), "03 01 11 04 05 06");
}

/// Clearing a list keeps what it was given, freeing all does not.
#[test]
fn clearing_keeps_the_allocation() {
    let mut bench = filled();
    bench.allocate(&[[3, 2], [5, 1]]);
    bench.run(0, 0, &[1, 2, 3], &[4]);
    let kept = bench.slave.session.pool.clone();
    bench.run(1, 1, &[1; 5], &[4]);
    bench.ask("DE 02 01 00");
    bench.ask("DE 00 01 00");
    bench.good("E3 00 01 00");
    // The other list has its own still.
    assert_eq!(bench.slave.session.pool, kept);
    bench.good("E2 00 01 00 00 04");
    bench.refused("E2 00 01 00 00 05", "FE 22");
    bench.refused(&alloc_entry(1, 0, 1), "FE 29");
    bench.refused(&alloc_odt(1, 1), "FE 29");
    bench.refused("DE 01 01 00", "FE 2A");
    bench.good("D6");
    for packet in [
        "E3 00 00 00",
        "E2 00 00 00 00 00",
        "E0 10 00 00 00 00 01 00",
    ] {
        bench.refused(packet, "FE 22");
    }
}

/// A session begins without lists, however the one before ended.
#[test]
fn a_session_begins_without_lists() {
    for end in [CONNECT, "FE"] {
        let mut bench = Bench::with_lists();
        bench.run(3, 0, &[1], &[1]);
        bench.event(0, 0);
        bench.packet();
        bench.send(end);
        bench.packet();
        bench.ask(CONNECT);
        bench.unlock(0x04);
        bench.told("DA", "FF 11 00 00 02 00 00 00");
        for packet in ["D5 00 01 00", "D4 00 00 00 01", "D3 00 00 00 00 01"] {
            bench.refused(packet, "FE 29");
        }
        for list in [0, 3, 255] {
            for packet in [
                "E3 00 {} 00",
                "E2 00 {} 00 00 00",
                "DE 00 {} 00",
                "DE 02 {} 00",
            ] {
                bench.refused(&packet.replace("{}", &format!("{:02X}", list)), "FE 22");
            }
        }
        for packet in ["DD 00", "DD 01", "DD 02"] {
            bench.told(packet, "FF");
        }
        bench.refused("E1 FF 01 01 00 00 00 00", "FE 29");
        assert_eq!(bench.event(0, 0), 0);
        assert_eq!(bench.packet(), "-");
        bench.allocate(&[[1, 1]]);
    }
}

/// The weighing gun's one long list: sixteen packets, of which the pool's entries fill all but a few.
#[test]
fn one_list_of_sixteen_odts() {
    let mut bench = filled();
    let entries = [8; 16];
    bench.allocate(&[entries]);
    for odt in 0..16 {
        bench.entries(0, odt, &[4; 8]);
    }
    bench.mode(0, 0);
    bench.starts(0, 0);
    assert_eq!(bench.event(0, 0x0201), 256);
    bench.meas.clear();
    assert_eq!(bench.packet(), format!("00 01 02 {}", rising(1, 32)));
    for odt in 1..16 {
        assert_eq!(bench.event(0, 0), 1);
        assert_eq!(bench.packet(), format!("{:02X} {}", odt, rising(1, 32)));
    }
    assert_eq!(bench.packet(), "-");
    assert_eq!(bench.event(0, 0), 256);
}

/// Where an answer waits at every slot, the last list of the round has its next packet leave in the
/// 2L-th slot, and the last packet of its sample in the 2Lp-th; no list waits longer.
#[test]
fn packets_leave_in_time() {
    for lists in [1, 3, 8u8] {
        for packets in [1, 16 / lists] {
            let mut bench = filled();
            bench.allocate(&vec![vec![1; packets.into()]; lists.into()]);
            for list in 0..lists {
                for odt in 0..packets {
                    bench.entries(list, odt, &[1]);
                }
                bench.mode(list, 0);
                bench.starts(list, list * packets);
            }
            // The last frame is the last list's, as it is worst for that list.
            bench.event(0, 0);
            while bench.packet() != "-" {}
            bench.event(0, 0);
            let mut left = vec![Vec::new(); lists.into()];
            for slot in 1..=2 * u32::from(lists * packets) {
                if !bench.slave.answer.waits() {
                    bench.send("FC");
                }
                let number = bytes(&bench.packet())[0];
                if number < 0xFE {
                    left[usize::from(number / packets)].push(slot);
                }
            }
            for (list, slots) in (1u32..).zip(&left) {
                let expected = (0..u32::from(packets)).map(|p| 2 * (p * u32::from(lists) + list));
                assert!(slots.iter().copied().eq(expected));
            }
        }
    }
}
