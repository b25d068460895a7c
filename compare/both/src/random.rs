//! Calls by chance: a master that mostly does well, damage, noise, a restless host.

use crate::lent::ROOMS;
use crate::packet::{
    alloc_entries, alloc_lists, alloc_odts, download, key, short_download, unlock_packet,
    with_address, CALIBRATION, LISTS,
};
use crate::rig::Rig;
use crate::tool::FOUR;
use crate::wire::{frame, ESC, FRAME, LONGEST, SYNC};

/// So many turns with one pair of slaves, then others; it bounds the log of a difference.
const TURNS: usize = 150;

pub fn run(rig: &mut Rig) {
    while !rig.done() {
        let start = match rig.dice.below(3) {
            0 => rig.dice.number(),
            _ => 1,
        };
        let vary = rig.dice.once_in(2);
        rig.begin(start, vary);
        if !rig.dice.once_in(8) {
            rig.open();
            allocate(rig);
        }
        // Lists that run together are too rare if each comes up by chance.
        for _ in 0..rig.dice.one_of(&[0, 6]) {
            list(rig);
        }
        for _ in 0..TURNS {
            turn(rig);
        }
    }
}

fn turn(rig: &mut Rig) {
    match rig.dice.below(40) {
        0..=15 => {
            let packet = command(rig);
            rig.ask(&packet);
        }
        16 => {
            // Without a slot after it, so that an answer waits for a while.
            let packet = command(rig);
            rig.send(&packet);
        }
        17..=19 => list(rig),
        20..=22 => event(rig),
        23..=25 => crowd(rig),
        26..=31 => slots(rig),
        32 => {
            let room = rig.dice.below(FRAME + 8);
            rig.slot(room);
        }
        33 => damaged(rig),
        34 if rig.dice.once_in(2) => noise(rig),
        34 => burst(rig),
        35 => open(rig),
        36 | 37 => measure(rig),
        38 => rig.wrong_size(),
        _ => match rig.dice.below(40) {
            0 => power_up(rig),
            1..=3 => script(rig),
            4..=9 => {
                // A waiting answer would have all of it dropped.
                rig.drain();
                allocate(rig);
            }
            _ => {}
        },
    }
}

fn power_up(rig: &mut Rig) {
    let start = rig.dice.number();
    rig.power_up(start);
}

/// Key after key is tried. Three wrong ones shut it, most often for the rest of this life: so it comes
/// seldom, and the locks open in most lives.
fn script(rig: &mut Rig) {
    rig.drain();
    for _ in 0..1 + rig.dice.below(4) {
        let resource = rig.dice.one_of(&[CALIBRATION, LISTS]);
        rig.wrong_key(resource);
    }
    if rig.dice.once_in(4) {
        power_up(rig);
        rig.open();
        allocate(rig);
    }
}

/// Events and slots close together, so that lists miss some and wait for their turns.
fn crowd(rig: &mut Rig) {
    for _ in 0..rig.dice.below(16) {
        if rig.dice.once_in(2) {
            event(rig);
        } else {
            rig.slot(FRAME);
        }
    }
}

fn slots(rig: &mut Rig) {
    for _ in 0..rig.dice.below(6) {
        let room = match rig.dice.below(3) {
            0 => rig.dice.one_of(&ROOMS),
            _ => FRAME,
        };
        rig.slot(room);
    }
}

fn event(rig: &mut Rig) {
    let number = rig.dice.one_of(&[0, 0, 0, 0, 1, 1, 1, 2, 256, u32::MAX]);
    let clock = rig.dice.number() as u16;
    rig.event(number, clock);
}

fn measure(rig: &mut Rig) {
    let at = rig.dice.one_of(&[0, 0, 8, 250, 4080]);
    let bytes = data(rig, 16);
    rig.measure(at, &bytes);
}

/// A session if there is none, and its locks; now and then a key is wrong.
fn open(rig: &mut Rig) {
    if rig.send(&[0xFD]) == 2 {
        rig.open();
        allocate(rig);
    }
    rig.drain();
    let resource = rig.dice.one_of(&[CALIBRATION, LISTS]);
    if let Some(seed) = rig.seed(resource) {
        let wrong = rig.dice.once_in(12);
        let key = key(resource, seed) ^ u32::from(wrong) << rig.dice.below(32);
        rig.ask(&unlock_packet(key));
    }
}

/// Lists anew: half the time four like each other, else of any sizes.
fn allocate(rig: &mut Rig) {
    if rig.dice.once_in(2) {
        rig.allocate(&FOUR);
        return;
    }
    let lists = 1 + rig.dice.below(8);
    let odts = rig.dice.one_of(&[1, 2, 2, 1 + 16 / lists]);
    rig.free();
    rig.alloc_lists(lists as u16);
    for _ in 0..2 * lists {
        // In any order; some lists get none, some are asked for twice.
        let (list, count) = (rig.dice.below(lists), 1 + rig.dice.below(odts));
        rig.alloc_odts(list as u16, count as u8);
    }
    for _ in 0..lists * odts {
        grow(rig);
    }
}

/// Entries for an ODT, which most often has none yet.
fn grow(rig: &mut Rig) {
    let odts = empty_odts(rig);
    let (list, odt) = if odts.is_empty() || rig.dice.once_in(20) {
        let [list, odt, _] = place(rig);
        (list, odt)
    } else {
        rig.dice.one_of(&odts)
    };
    let count = match rig.dice.below(8) {
        0 => rig.dice.one_of(&[0, 16, 100, 127, 128, 129, 255]),
        _ => 1 + rig.dice.below(6) as u8,
    };
    rig.alloc_entries(u16::from(list), odt, count);
}

/// The ODTs without entries.
fn empty_odts(rig: &Rig) -> Vec<(u8, u8)> {
    let mut empty = Vec::new();
    for (list, odts) in (0..).zip(&rig.seen.setup().lists) {
        let odts = (0..).zip(&odts.odts).filter(|(_, odt)| odt.is_empty());
        empty.extend(odts.map(|(odt, _)| (list, odt)));
    }
    empty
}

/// List, ODT and entry; most often they are there.
fn place(rig: &mut Rig) -> [u8; 3] {
    let one_of = |rig: &mut Rig, count: usize| {
        let beyond = usize::from(rig.dice.once_in(16));
        rig.dice.below(count.max(1) + beyond)
    };
    let count = rig.seen.setup().lists.len();
    let list = one_of(rig, count);
    let count = rig.seen.setup().lists.get(list).map_or(0, |l| l.odts.len());
    let odt = one_of(rig, count);
    let odts = rig.seen.setup().lists.get(list).map(|l| &l.odts);
    let count = odts.and_then(|o| o.get(odt)).map_or(0, Vec::len);
    let entry = one_of(rig, count);
    [list as u8, odt as u8, entry as u8]
}

/// A list set up, most often so that it runs.
fn list(rig: &mut Rig) {
    // A waiting answer would have all of it dropped.
    rig.drain();
    if rig.dice.once_in(3) {
        grow(rig);
    }
    let [number, ..] = place(rig);
    rig.turn(0, number);
    match rig.dice.below(12) {
        // Seldom, since each of so many entries takes a command.
        0 => filled(rig, number, [60, 61, 62], [62, 63, 64]),
        1..=4 => scattered(rig, number),
        _ => filled(rig, number, [1, 5, 6], [0, 1, 7]),
    }
    let event = rig.dice.below(2) as u8;
    rig.set_mode(number, event);
    let mode = rig.dice.one_of(&[1, 1, 1, 2]);
    rig.turn(mode, number);
}

/// Entries one after another, with one of these numbers of bytes in the first ODT and in each later one,
/// as far as there are entries.
fn filled(rig: &mut Rig, list: u8, first: [u8; 3], later: [u8; 3]) {
    let odts = match rig.seen.setup().lists.get(usize::from(list)) {
        Some(list) => list.odts.iter().map(Vec::len).collect(),
        None => vec![1],
    };
    let mut bytes = Vec::new();
    for (odt, entries) in odts.iter().enumerate() {
        let some = if odt == 0 { &first } else { &later };
        bytes.push(rig.dice.one_of(some).min(4 * (*entries).min(60) as u8));
    }
    let extension = rig.dice.below(2) as u8;
    let address = address(rig).min(5000);
    rig.fill(list, &bytes, extension, address);
}

/// Entries here and there, in a list that is cleared only now and then.
fn scattered(rig: &mut Rig, list: u8) {
    if rig.dice.once_in(3) {
        rig.ask(&[0xE3, 0, list, 0]);
    }
    for _ in 0..1 + rig.dice.below(4) {
        // Of this list, if chance has it so.
        let [other, odt, entry] = place(rig);
        let list = if rig.dice.once_in(8) { other } else { list };
        rig.point(list, odt, entry);
        for _ in 0..1 + rig.dice.below(2) {
            let (size, extension) = (rig.dice.below(5) as u8, rig.dice.below(2) as u8);
            let address = rig.dice.below(32) as u32;
            rig.write_entry(size, extension, address);
        }
    }
}

fn address(rig: &mut Rig) -> u32 {
    match rig.dice.below(8) {
        0 => 4080 + rig.dice.below(20) as u32,
        1 => rig.dice.one_of(&[
            0xFF,
            0x9A,
            0x9A9B,
            0xFFFF,
            0x0001_0000,
            u32::MAX - 3,
            u32::MAX,
        ]),
        2 => rig.dice.below(5001) as u32,
        _ => rig.dice.below(32) as u32,
    }
}

fn data(rig: &mut Rig, count: usize) -> Vec<u8> {
    (0..count).map(|_| rig.dice.byte()).collect()
}

/// Mostly few, since a long packet takes as many calls as ten short ones.
fn count(rig: &mut Rig) -> u8 {
    match rig.dice.below(8) {
        0 => rig.dice.one_of(&[0, 55, 56, 57, 61, 62, 63, 64]),
        _ => rig.dice.below(9) as u8,
    }
}

/// A command that is likely to be done, spoilt now and then.
fn command(rig: &mut Rig) -> Vec<u8> {
    let mut packet = good_command(rig);
    if rig.dice.once_in(10) {
        let at = rig.dice.below(packet.len());
        packet[at] = rig.dice.byte();
    }
    match rig.dice.below(40) {
        0 | 1 => packet.truncate(1 + rig.dice.below(8)),
        2 if packet.len() > 1 => packet.truncate(packet.len() - 1),
        3 => packet.resize(LONGEST, 0x9B),
        _ => {}
    }
    packet.truncate(LONGEST);
    packet
}

fn good_command(rig: &mut Rig) -> Vec<u8> {
    let (few, [list, odt, entry]) = (rig.dice.below(3) as u8, place(rig));
    let (count, extension) = (count(rig), rig.dice.below(2) as u8);
    let address = address(rig);
    match rig.dice.below(38) {
        0 => vec![rig.dice.one_of(&[0xFC, 0xFC, 0xFC, 0xFF, 0xFE]), 0],
        1 | 2 => vec![rig.dice.one_of(&[0xFD, 0xDA, 0xD9])],
        3 => vec![rig.dice.any_byte(), few, list, 0, few, 0, 1, 0],
        4 => vec![0xF8, 0, rig.dice.one_of(&[CALIBRATION, LISTS])],
        5..=7 => with_address([0xF6, 0, 0, extension], address),
        8..=10 => vec![0xF5, count],
        11..=13 => with_address([0xF4, count, 0, extension], address),
        14 | 15 => with_address([0xF3, 0, 0, 0], address),
        16..=19 => download(count, &data(rig, count.into())),
        20..=22 => short_download(count, extension, address, &data(rig, count.into())),
        23 => vec![0xE3, 0, list, 0],
        24 | 25 => vec![0xE2, 0, list, 0, odt, entry],
        26..=29 => with_address([0xE1, 0xFF, count % 5, extension], address),
        30 | 31 => vec![0xE0, 0x10, list, 0, extension, 0, 1, 0],
        32 | 33 => vec![0xDE, few, list, 0],
        34 | 35 => vec![0xDD, few],
        36 => alloc_entries(u16::from(list), odt, count),
        _ => match rig.dice.below(6) {
            0 => vec![0xD6],
            1 | 2 => alloc_lists(u16::from(count)),
            _ => alloc_odts(u16::from(list), count),
        },
    }
}

/// A frame with something wrong: cut, a byte changed, lost or put in, twice at once.
fn damaged(rig: &mut Rig) {
    let packet = command(rig);
    let mut bytes = frame(rig.dice.byte(), &packet);
    for _ in 0..1 + rig.dice.below(2) {
        let at = rig.dice.below(bytes.len());
        match rig.dice.below(5) {
            0 => bytes.truncate(at + 1),
            1 => bytes[at] = rig.dice.byte(),
            2 => bytes[at] ^= 1 << rig.dice.below(8),
            3 if bytes.len() > 1 => {
                bytes.remove(at);
            }
            _ => bytes.insert(at, rig.dice.byte()),
        }
    }
    rig.wire(&bytes);
}

fn noise(rig: &mut Rig) {
    let plain = rig.dice.once_in(2);
    let mut bytes = Vec::new();
    for _ in 0..rig.dice.below(30) {
        let byte = if plain {
            rig.dice.any_byte()
        } else {
            // What makes messages by chance: short lengths and escapes; and the edges of LEN.
            rig.dice
                .one_of(&[SYNC, ESC, 0, 1, 1, 2, 64, 65, 0xFC, 0xFD, 0xFF])
        };
        bytes.push(byte);
    }
    rig.wire(&bytes);
}

/// Commands that have come in one ring buffer: each is answered before the rest is handed on, or not.
fn burst(rig: &mut Rig) {
    let packets: Vec<_> = (0..2 + rig.dice.below(3)).map(|_| command(rig)).collect();
    let answered = !rig.dice.once_in(4);
    rig.burst(&packets, answered);
}
