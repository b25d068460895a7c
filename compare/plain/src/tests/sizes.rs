//! Packets with all the bytes that they may have, and short ones in their places.

use super::{bytes, rising, sizes, Bench};

fn filled() -> Bench {
    let mut bench = Bench::with_lists();
    for (i, byte) in bench.meas.iter_mut().enumerate() {
        *byte = (i as u8).wrapping_add(1);
    }
    bench
}

#[test]
fn a_sample_of_full_odts() {
    let mut bench = filled();
    for list in 0..4 {
        bench.run(list, 0, &sizes(61), &sizes(63));
    }
    assert_eq!(bench.event(0, 0x0201), 4 * 256);
    bench.meas.clear();
    for odt in [0, 1] {
        for list in 0..4u8 {
            let (front, count) = match odt {
                0 => (format!("{:02X} 01 02", 2 * list), 61),
                _ => (format!("{:02X}", 2 * list + 1), 63),
            };
            let packet = bench.packet();
            assert_eq!(packet, format!("{} {}", front, rising(1, count)));
            assert_eq!(bytes(&packet).len(), 64);
        }
    }
    assert_eq!(bench.packet(), "-");
}

#[test]
fn a_short_packet_after_a_long_one() {
    let mut bench = filled();
    assert_eq!(
        bench.ask("F4 3F 00 01 00 00 00 00"),
        format!("FF {}", rising(1, 63))
    );
    bench.told("FC", "FE 00");
    bench.told("DA", "FF 11 04 00 02 00 00 00");
    bench.run(0, 0, &sizes(61), &sizes(63));
    bench.event(0, 7);
    while bench.packet() != "-" {}
    bench.ask("DE 00 00 00");
    bench.good("E3 00 00 00");
    bench.run(0, 0, &[2], &[1]);
    bench.event(0, 8);
    assert_eq!(bench.packet(), "00 08 00 01 02");
    assert_eq!(bench.packet(), "01 01");
}

/// All that can be doubled in an answer and in a sample, in no more room than a slot asks for.
#[test]
fn the_longest_frames() {
    let mut bench = Bench::with_lists();
    bench.meas = vec![0x9A; 64];
    bench.run(0, 0, &sizes(61), &sizes(63));
    bench.until_ctr(0x9A);
    assert_eq!(bench.send("F4 3F 00 01 00 00 00 00"), 1);
    // SYNC, LEN, FF and the checksum are single here, all else is a pair.
    assert_eq!(bytes(&bench.slot()).len(), 4 + 2 * 64);
    bench.event(0, 0x9A9B);
    assert_eq!(bytes(&bench.slot()).len(), 4 + 2 * 64);
    assert_eq!(bytes(&bench.slot()).len(), 5 + 2 * 63);
}
