//! Blocks at the edges of memories of every length.

use crate::lent::LENGTHS;
use crate::packet::{download, rising, short_download, with_address};
use crate::rig::Rig;
use crate::wire::LONGEST;

pub fn run(rig: &mut Rig) {
    for length in LENGTHS {
        for extension in [0, 1] {
            rig.begin(1, false);
            rig.lend(LENGTHS[2], LENGTHS[2]);
            rig.open_with(&[[2]]);
            fill(rig);
            if extension == 0 {
                rig.lend(length, 4096);
            } else {
                rig.lend(4096, length);
            }
            edges(rig, extension, length.min(4096) as u32);
            sums(rig, extension, length.min(4096) as u32);
            first_address(rig, extension);
        }
    }
}

/// Measured bytes whose sum is above 65,535; among them, and in calibration, some that tell one
/// address from the next.
fn fill(rig: &mut Rig) {
    for at in (0..4080).step_by(240) {
        rig.measure(at, &[0xFF; 240]);
    }
    for at in [0, 4064, 4096, 4960] {
        let bytes: Vec<u8> = (0..40).map(|i| (at / 16 + 7 * i) as u8).collect();
        rig.measure(at, &bytes);
    }
    for address in [0, 6, 4080, 4086] {
        rig.set_mta(0, address);
        rig.ask(&[0xF0, 6, 1, 2, 3, 4, 5, 6]);
    }
    rig.ask(&short_download(56, 0, 4020, &rising(56)));
}

fn edges(rig: &mut Rig, extension: u8, reach: u32) {
    for count in [1u8, 7, 56, 62, 63] {
        let n = u32::from(count);
        let last = reach.saturating_sub(n);
        let addresses = [
            0,
            last.saturating_sub(1),
            last,
            last + 1,
            reach,
            0x0001_0000,
            u32::MAX - n,
            u32::MAX - n + 1,
            u32::MAX,
        ];
        for address in addresses {
            // The other command goes on from where this one leaves the address.
            rig.ask(&with_address([0xF4, count, 0, extension], address));
            rig.ask(&[0xF5, LONGEST as u8 - count]);
            rig.set_mta(extension, address);
            rig.ask(&[0xF5, count]);
            // Shows whether the address moved on.
            rig.ask(&[0xF5, 1]);
            rig.set_mta(extension, address);
            written(rig, count, extension, address);
            rig.point(0, 0, 0);
            rig.write_entry(count.min(4), extension, address);
            // Nothing is always inside.
            rig.write_entry(0, extension, address);
        }
    }
}

/// Each way to write so many bytes there, or as many as it can; a byte more goes where the address is.
fn written(rig: &mut Rig, count: u8, extension: u8, address: u32) {
    let mut data = rising(count.into());
    data[0] = 0x9A ^ address as u8;
    let most = count.min(62);
    rig.ask(&download(most, &data[..most.into()]));
    rig.ask(&[0xF0, 1, 0xA0]);
    data[0] = !data[0];
    let most = count.min(56);
    rig.ask(&short_download(
        most,
        extension,
        address,
        &data[..most.into()],
    ));
    rig.ask(&[0xF0, 1, 0xA1]);
}

fn sums(rig: &mut Rig, extension: u8, reach: u32) {
    let sizes = [0, 1, 2, 4094, 4095, 4096, 4097, 0x0001_0000, u32::MAX];
    for size in sizes {
        for address in [0, 1, reach.saturating_sub(size), u32::MAX] {
            rig.set_mta(extension, address);
            rig.ask(&with_address([0xF3, 0, 0, 0], size));
            rig.ask(&[0xF5, 1]);
        }
    }
}

/// In a session where no address is set: a block that is inside sets it, one that is not does not.
fn first_address(rig: &mut Rig, extension: u8) {
    for address in [0, 1, 4095, 4096] {
        rig.connect();
        rig.ask(&with_address([0xF4, 1, 0, extension], address));
        rig.ask(&[0xF5, 1]);
    }
}
