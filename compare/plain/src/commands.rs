//! The commands: each checks in the paper's order and changes things only after its last check.

mod access;
mod alloc;
mod daq;
mod standard;

use crate::packet::Packet;
use crate::seed::{Generator, WrongKeys};
use crate::session::Session;

/// The code of the refusal, if there is one; a good answer is in its packet.
type Outcome = Result<(), u8>;

const LIST_RUNS: u8 = 0x11;
const UNKNOWN: u8 = 0x20;
/// Too short for its command, or data missing.
const SHORT: u8 = 0x21;
const RANGE: u8 = 0x22;
const WRITE_PROTECTED: u8 = 0x23;
const NOT_INSIDE: u8 = 0x24;
const LOCKED: u8 = 0x25;
const SEQUENCE: u8 = 0x29;
const UNFIT: u8 = 0x2A;
const POOL_PASSED: u8 = 0x30;

/// Whether this packet opens a session when there is none.
pub fn is_good_connect(packet: &[u8]) -> bool {
    packet.len() >= 2 && packet[0] == 0xFF && packet[1] == 0
}

/// Carries out a command and makes the answer that is to wait.
pub fn answer(
    session: &mut Session,
    generator: &mut Generator,
    wrong_keys: &mut WrongKeys,
    packet: &[u8],
    cal: &mut [u8],
    meas: &[u8],
    answer: &mut Packet,
) {
    // The plain good answer, to which a command adds what it has to say.
    answer.begin(&[0xFF]);
    let outcome = match packet[0] {
        0xFF => session.connect(packet, answer),
        0xFE => session.disconnect(),
        0xFD => session.get_status(answer),
        0xFC => session.synch(),
        0xF8 => session.get_seed(packet, generator, *wrong_keys, answer),
        0xF7 => session.unlock(packet, wrong_keys, answer),
        0xF6 => session.set_mta(packet),
        0xF5 => session.upload(packet, cal, meas, answer),
        0xF4 => session.short_upload(packet, cal, meas, answer),
        0xF3 => session.build_checksum(packet, cal, meas, answer),
        0xF0 => session.download(packet, cal),
        0xED => session.short_download(packet, cal),
        0xE3 => session.clear_daq_list(packet),
        0xE2 => session.set_daq_ptr(packet),
        0xE1 => session.write_daq(packet, cal, meas),
        0xE0 => session.set_daq_list_mode(packet),
        0xDE => session.start_stop_daq_list(packet, answer),
        0xDD => session.start_stop_synch(packet),
        0xDA => session.get_daq_processor_info(answer),
        0xD9 => session.get_daq_resolution_info(answer),
        0xD6 => session.free_daq(),
        0xD5 => session.alloc_daq(packet),
        0xD4 => session.alloc_odt(packet),
        0xD3 => session.alloc_odt_entry(packet),
        _ => Err(UNKNOWN),
    };
    if let Err(code) = outcome {
        answer.begin(&[0xFE, code]);
    }
}

/// One check of a command; where it fails, its code is the answer's.
fn check(good: bool, code: u8) -> Outcome {
    if good {
        Ok(())
    } else {
        Err(code)
    }
}

fn at_least(packet: &[u8], fewest: usize) -> Outcome {
    check(packet.len() >= fewest, SHORT)
}

fn number16(packet: &[u8], at: usize) -> u16 {
    u16::from_le_bytes([packet[at], packet[at + 1]])
}

fn number32(packet: &[u8], at: usize) -> u32 {
    u32::from_le_bytes([packet[at], packet[at + 1], packet[at + 2], packet[at + 3]])
}
