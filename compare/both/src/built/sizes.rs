//! Counts at their limits, and SHORT_DOWNLOAD in each of its outcomes.

use crate::packet::{download, rising, short_download, with_address, CALIBRATION};
use crate::rig::Rig;

pub fn run(rig: &mut Rig) {
    reads(rig);
    writes(rig);
    for unlocked in [false, true] {
        short_downloads(rig, unlocked);
    }
    ends(rig);
    first_address(rig);
}

/// The next byte shows whether the address has moved.
fn next_byte(rig: &mut Rig) {
    rig.ask(&[0xF5, 1]);
}

fn reads(rig: &mut Rig) {
    rig.begin(1, false);
    rig.connect();
    rig.measure(0, &rising(200));
    for count in [0, 1, 7, 8, 61, 62, 63, 64, 65, 128, 255] {
        rig.set_mta(1, 3);
        rig.ask(&[0xF5, count]);
        next_byte(rig);
        rig.ask(&with_address([0xF4, count, 0, 1], 5));
        next_byte(rig);
    }
}

fn writes(rig: &mut Rig) {
    rig.begin(1, false);
    rig.open();
    for count in [0u8, 1, 6, 7, 61, 62, 63, 64, 255] {
        let whole = usize::from(count.min(62));
        // All data, one byte too few, one too many.
        for data in [whole, whole.saturating_sub(1), 62.min(whole + 1)] {
            rig.set_mta(0, 0x40);
            rig.ask(&download(count, &rising(data)));
            next_byte(rig);
        }
    }
}

/// Every count, extension and number of data bytes at its limits, each with each.
fn short_downloads(rig: &mut Rig, unlocked: bool) {
    rig.begin(1, false);
    rig.connect();
    if unlocked {
        rig.unlock(CALIBRATION);
    }
    rig.set_mta(1, 0);
    for count in [0u8, 1, 2, 55, 56, 57, 255] {
        let whole = usize::from(count.min(56));
        for extension in [0, 1, 2, 255] {
            for data in [0, whole.saturating_sub(1), whole, 56.min(whole + 1)] {
                rig.ask(&short_download(count, extension, 0x40, &rising(data)));
                next_byte(rig);
            }
            // Not inside beside whatever else is wrong.
            rig.ask(&short_download(count, extension, 5000, &rising(whole)));
        }
    }
    for length in 1..8 {
        rig.ask(&short_download(57, 2, 5000, &[])[..length]);
        next_byte(rig);
    }
}

/// Blocks that end where calibration does, and a byte further; the reserved byte is anything.
fn ends(rig: &mut Rig) {
    rig.begin(1, false);
    rig.open();
    rig.set_mta(1, 0);
    for count in [1u8, 2, 55, 56] {
        let n = u32::from(count);
        let wraps = u32::MAX - n + 1;
        for address in [0, 4095 - n, 4096 - n, 4097 - n, 4096, wraps, u32::MAX] {
            let mut packet = short_download(count, 0, address, &rising(count.into()));
            packet[2] = count;
            packet[8] = 0x9A;
            rig.ask(&packet);
            next_byte(rig);
            rig.ask(&[0xF0, 1, 0xA0]);
        }
    }
}

/// In a session where no address is set, what is done sets it and what is refused does not; UPLOAD
/// and DOWNLOAD go on from there.
fn first_address(rig: &mut Rig) {
    let data = rising(56);
    for packet in [
        with_address([0xF4, 1, 0, 0], 0),
        short_download(56, 0, 0x40, &data),
        short_download(1, 0, 4095, &data),
        short_download(1, 0, 4096, &data),
        short_download(1, 1, 0, &data),
        short_download(56, 0, 0, &data[1..]),
        short_download(57, 0, 0, &data),
        short_download(1, 2, 0, &data),
        short_download(1, 0, 0, &data)[..7].to_vec(),
    ] {
        rig.begin(1, false);
        for unlocked in [false, true] {
            rig.connect();
            if unlocked {
                rig.unlock(CALIBRATION);
            }
            rig.ask(&packet);
            next_byte(rig);
            rig.ask(&packet);
            rig.ask(&[0xF0, 1, 0xA0]);
        }
    }
}
