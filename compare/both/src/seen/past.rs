//! What a command covers by what came before it: a key that wraps, what a renewal has to forget.

use super::{named, number};

/// A command that was taken, and what it met.
pub struct Asked {
    pub packet: Vec<u8>,
    /// The calibration and measured bytes lent.
    pub lent: [usize; 2],
    /// Of the block that a BUILD_CHECKSUM sums, not modulo anything.
    pub sum: u64,
}

/// The cases, in the order of their names.
enum Case {
    SumWraps,
    CalibrationKeyWraps,
    ListKeyWraps,
    LongKey,
    KeyAfterOpen,
    OldKey,
    ModeAlone,
    EntriesAlone,
    ModeAloneFreed,
    EntriesAloneFreed,
    OldAddress,
    KeptKey,
    BehindUpload,
    FirstByUpload,
    LeftByUpload,
    UnsetByUpload,
    BehindDownload,
    FirstByDownload,
    LeftByDownload,
    UnsetByDownload,
    WriteBehindUpload,
    WriteBehindDownload,
}

const NAMES: [&str; 22] = [
    "a sum above 65,535",
    "a calibration key that wraps",
    "a list key that wraps",
    "a key with bytes after it",
    "a key whose seed outlived a GET_SEED of no bytes",
    "a key to a seed that a renewal forgot",
    "a start of a list like one before a renewal, its mode set again",
    "a start of a list like one before a renewal, its entries written again",
    "a start of a list like one before a FREE_DAQ, its mode set again",
    "a start of a list like one before a FREE_DAQ, its entries written again",
    "an UPLOAD right after a FREE_DAQ, from the address before it",
    "a key right after a FREE_DAQ, to the seed before it",
    "an UPLOAD right behind the block of a SHORT_UPLOAD",
    "an UPLOAD behind a SHORT_UPLOAD that found no address set",
    "an UPLOAD from the address that a refused SHORT_UPLOAD left",
    "an UPLOAD refused since a refused SHORT_UPLOAD left the address unset",
    "an UPLOAD right behind the block of a SHORT_DOWNLOAD",
    "an UPLOAD behind a SHORT_DOWNLOAD that found no address set",
    "an UPLOAD from the address that a refused SHORT_DOWNLOAD left",
    "an UPLOAD refused since a refused SHORT_DOWNLOAD left the address unset",
    "a DOWNLOAD right behind the block of a SHORT_UPLOAD",
    "a DOWNLOAD right behind the block of a SHORT_DOWNLOAD",
];

/// A SHORT_UPLOAD or SHORT_DOWNLOAD as the command before.
#[derive(Clone, Copy)]
struct Short {
    writes: bool,
    done: bool,
    /// It found an address set.
    set: bool,
}

/// What done commands have set up since the session began.
#[derive(Clone, Copy, Default)]
struct Session {
    /// The resource of the seed that is out.
    seed: Option<u8>,
    /// A seed of no bytes was given since.
    outlived: bool,
    mta: Option<(u8, u32)>,
    short: Option<Short>,
    pointer: usize,
    has_mode: [bool; 8],
    has_entries: [bool; 8],
}

#[derive(Default)]
pub struct Past {
    now: Session,
    /// What the last CONNECT found, if that renewed a session.
    renewed: Session,
    /// What the last FREE_DAQ found.
    freed: Session,
    /// The command before was a FREE_DAQ.
    just_freed: bool,
    counts: [u64; NAMES.len()],
}

impl Past {
    /// A power-up, or a command that nobody knows: all may be otherwise now.
    pub fn forget(&mut self) {
        self.now = Session::default();
        self.renewed = Session::default();
        self.freed = Session::default();
        self.just_freed = false;
    }

    /// The extension of the address, where one is set.
    pub fn extension(&self) -> Option<u8> {
        self.now.mta.map(|mta| mta.0)
    }

    /// The sum of the block that this BUILD_CHECKSUM asks for.
    pub fn sum(&self, packet: &[u8], lent: [&[u8]; 2]) -> u64 {
        match (packet, self.now.mta) {
            ([0xF3, ..], Some((extension, address))) if packet.len() >= 8 => {
                let (from, size) = (address as usize, number(packet) as usize);
                let block = lent[usize::from(extension)].get(from..from.saturating_add(size));
                block.map_or(0, |bytes| bytes.iter().map(|b| u64::from(*b)).sum())
            }
            _ => 0,
        }
    }

    pub fn answered(&mut self, asked: &Asked, answer: &[u8]) {
        let packet = asked.packet.as_slice();
        let good = answer[0] == 0xFF;
        let short = self.now.short.take();
        match (packet[0], std::mem::take(&mut self.just_freed)) {
            (0xF5, true) if good => self.count(Case::OldAddress),
            (0xF7, true) if good => self.count(Case::KeptKey),
            _ => {}
        }
        match (packet[0], short) {
            (0xF5, Some(short)) => self.reads_on(short, answer),
            (0xF0, Some(short)) if short.done && good => self.count(match short.writes {
                false => Case::WriteBehindUpload,
                true => Case::WriteBehindDownload,
            }),
            (0xF4 | 0xED, _) => {
                self.now.short = Some(Short {
                    writes: packet[0] == 0xED,
                    done: good,
                    set: self.now.mta.is_some(),
                });
            }
            _ => {}
        }
        match (packet[0], answer) {
            (_, [0xFF, ..]) => self.done(asked, answer),
            // A wrong key, which ends the session.
            (0xF7, [0xFE, 0x25]) => self.forget(),
            (0xF7, [0xFE, 0x29]) if self.renewed.seed.is_some() => self.count(Case::OldKey),
            (0xDE, [0xFE, 0x2A]) => self.unfit(usize::from(packet[2])),
            _ => {}
        }
    }

    pub fn cells(&self) -> Vec<(String, u64)> {
        named(&NAMES, &self.counts)
    }

    fn count(&mut self, case: Case) {
        self.counts[case as usize] += 1;
    }

    fn done(&mut self, asked: &Asked, answer: &[u8]) {
        let packet = asked.packet.as_slice();
        match packet[0] {
            0xFF => {
                self.renewed = self.now;
                self.now = Session::default();
                self.freed = Session::default();
            }
            0xD6 => self.lists_freed(),
            0xFE => self.forget(),
            0xF8 if answer[1] == 0 => self.now.outlived = self.now.seed.is_some(),
            0xF8 => {
                self.now.seed = Some(packet[2]);
                self.now.outlived = false;
                self.renewed.seed = None;
            }
            0xF7 => self.unlocked(packet),
            0xF6 => self.now.mta = Some((packet[3], number(packet))),
            0xF4 | 0xED => {
                self.now.mta = Some((packet[3], number(packet) + u32::from(packet[1])));
            }
            0xF5 | 0xF0 => self.move_on(u32::from(packet[1])),
            0xF3 => {
                self.move_on(number(packet));
                if asked.sum > 65_535 {
                    self.count(Case::SumWraps);
                }
            }
            _ => self.set_up(packet),
        }
    }

    /// An UPLOAD right after one of the two.
    fn reads_on(&mut self, short: Short, answer: &[u8]) {
        let case = match (short.writes, short.done, short.set, answer) {
            (false, true, true, [0xFF, ..]) => Case::BehindUpload,
            (false, true, false, [0xFF, ..]) => Case::FirstByUpload,
            (false, false, true, [0xFF, ..]) => Case::LeftByUpload,
            (false, false, false, [0xFE, 0x29]) => Case::UnsetByUpload,
            (true, true, true, [0xFF, ..]) => Case::BehindDownload,
            (true, true, false, [0xFF, ..]) => Case::FirstByDownload,
            (true, false, true, [0xFF, ..]) => Case::LeftByDownload,
            (true, false, false, [0xFE, 0x29]) => Case::UnsetByDownload,
            _ => return,
        };
        self.count(case);
    }

    fn move_on(&mut self, by: u32) {
        self.now.mta = self.now.mta.map(|(e, at)| (e, at.wrapping_add(by)));
    }

    fn unlocked(&mut self, packet: &[u8]) {
        let sum = u32::from_le_bytes([packet[2], packet[3], packet[4], packet[5]]).rotate_right(8);
        match self.now.seed {
            Some(1) if sum < 0xD05E => self.count(Case::CalibrationKeyWraps),
            Some(4) if sum < 0xDA00 => self.count(Case::ListKeyWraps),
            _ => {}
        }
        if packet.len() > 6 && !packet.ends_with(&packet[2..6]) {
            self.count(Case::LongKey);
        }
        if self.now.outlived {
            self.count(Case::KeyAfterOpen);
        }
        self.now.seed = None;
        self.now.outlived = false;
    }

    fn set_up(&mut self, packet: &[u8]) {
        let list = packet.get(2).map_or(0, |b| usize::from(*b));
        match packet[0] {
            0xE3 => {
                for session in [&mut self.now, &mut self.renewed, &mut self.freed] {
                    session.has_mode[list] = false;
                    session.has_entries[list] = false;
                }
            }
            0xE2 => self.now.pointer = list,
            0xE1 => self.now.has_entries[self.now.pointer] |= packet[2] > 0,
            0xE0 => self.now.has_mode[list] = true,
            _ => {}
        }
    }

    fn lists_freed(&mut self) {
        self.freed = self.now;
        self.now.has_mode = [false; 8];
        self.now.has_entries = [false; 8];
        self.just_freed = true;
    }

    /// A list was too unfit to start.
    fn unfit(&mut self, list: usize) {
        let has = (self.now.has_mode[list], self.now.has_entries[list]);
        let had = |session: &Session| session.has_mode[list] && session.has_entries[list];
        let (renewed, freed) = (had(&self.renewed), had(&self.freed));
        match has {
            (true, false) if renewed => self.count(Case::ModeAlone),
            (false, true) if renewed => self.count(Case::EntriesAlone),
            (true, false) if freed => self.count(Case::ModeAloneFreed),
            (false, true) if freed => self.count(Case::EntriesAloneFreed),
            _ => {}
        }
    }
}
