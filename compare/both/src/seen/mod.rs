//! What was covered: each number of each call, each kind of frame, each command with each answer.

mod answers;
mod cases;
mod keys;
mod limits;
mod lists;
mod past;
mod pool;
mod samples;
mod setup;
mod slices;

use crate::effect::Effect;
use crate::lent::{LENGTHS, ROOMS, WRONG_SIZES};
use crate::step::{Call, Step};
use crate::wire::{self, LONGEST};
use answers::Answers;
use keys::Keys;
use limits::Limits;
use lists::Lists;
use past::{Asked, Past};
use pool::Pool;
use samples::Samples;
use setup::{Emptied, Setup};
use slices::Slices;

/// A LEN that is refused.
const BAD_LENS: [u8; 4] = [0, 65, 128, 255];

/// What a memory's length can do to a call.
const USES: [&str; 3] = ["inside", "not inside", "sampled"];
const INSIDE: usize = 0;
const NOT_INSIDE: usize = 1;
const SAMPLED: usize = 2;

/// A name, and what must have come by its own name, with its count.
type Group = (&'static str, Vec<(String, u64)>);

#[derive(Default)]
pub struct Seen {
    answers: Answers,
    past: Past,
    keys: Keys,
    setup: Setup,
    lists: Lists,
    pool: Pool,
    samples: Samples,
    limits: Limits,
    /// The command whose answer waits, where it is known.
    asked: Option<Asked>,
    byte: [u64; 11],
    slice: [u64; 11],
    slices: Slices,
    bad_len: [u64; BAD_LENS.len()],
    event: [u64; 11],
    slot: [u64; 11],
    power_up: [u64; 11],
    no_frame: u64,
    answer_frame: u64,
    /// An answer sent with all the bytes it can have.
    longest: u64,
    /// A frame sent with an escaped CTR, packet byte, checksum.
    escaped: [u64; 3],
    /// A CTR of 0 after one of 255.
    wrapped: u64,
    room: [u64; ROOMS.len()],
    /// Of calibration, then of measured bytes: by the length lent, then by its use.
    lent: [[[u64; USES.len()]; LENGTHS.len()]; 2],
    wrong_size: [u64; WRONG_SIZES.len()],
    never_powered: u64,
}

impl Seen {
    /// Two new slaves, which have no past.
    pub fn begin(&mut self) {
        self.keys.begin();
        self.setup = Setup::default();
    }

    /// What the tool has made of its lists so far.
    pub fn setup(&self) -> &Setup {
        &self.setup
    }

    pub fn call(&mut self, step: &Step, effect: &Effect) {
        if let Call::Measure(..) = step.call {
            return;
        }
        let number = (effect.result >> 16) as usize;
        self.number(&step.call, number);
        self.slices.call(&step.call, number, effect.taken as usize);
        match (&step.call, number) {
            (call, 10) => {
                match WRONG_SIZES.iter().position(|size| *size == step.state) {
                    Some(at) => self.wrong_size[at] += 1,
                    None => self.never_powered += 1,
                }
                if let Call::PowerUp(_) = call {
                    self.keys.power_up_refused();
                }
            }
            (Call::PowerUp(_), _) => {
                self.asked = None;
                self.past.forget();
                self.keys.power_up();
                self.setup.end(Emptied::PoweredUp);
            }
            (Call::Byte(len), 3) => self.refused_len(*len),
            (Call::Slice(bytes), 3) => self.refused_len(bytes[effect.taken as usize - 1]),
            // Which command that was is known only where a whole packet was sent.
            (Call::Byte(_) | Call::Slice(_), 1) => self.asked = None,
            (Call::Event(event, _), 0) => {
                self.samples
                    .event(&mut self.setup, *event, effect.result as usize);
                self.lent(step, effect.result as usize);
            }
            (Call::Slot(_), 0) => self.no_frame += u64::from(effect.result == 0),
            _ => {}
        }
    }

    /// The number of a call.
    fn number(&mut self, call: &Call, number: usize) {
        match call {
            Call::Measure(..) => {}
            Call::PowerUp(_) => self.power_up[number] += 1,
            Call::Byte(_) => self.byte[number] += 1,
            Call::Slice(_) => self.slice[number] += 1,
            Call::Event(..) => self.event[number] += 1,
            Call::Slot(room) => {
                self.slot[number] += 1;
                if let Some(at) = ROOMS.iter().position(|r| r == room) {
                    self.room[at] += 1;
                }
            }
        }
    }

    fn refused_len(&mut self, len: u8) {
        if let Some(at) = BAD_LENS.iter().position(|l| *l == len) {
            self.bad_len[at] += 1;
        }
    }

    /// Memories that samples were taken of.
    fn lent(&mut self, step: &Step, counts: usize) {
        if counts / 256 > 0 {
            self.memory(0, step.cal, SAMPLED);
            self.memory(1, step.meas, SAMPLED);
        }
    }

    fn memory(&mut self, extension: usize, length: usize, what: usize) {
        if let Some(at) = LENGTHS.iter().position(|l| *l == length) {
            self.lent[extension][at][what] += 1;
        }
    }

    /// A command was taken that is known, with these memories lent.
    pub fn taken(&mut self, packet: &[u8], lent: [&[u8]; 2]) {
        self.asked = Some(Asked {
            packet: packet.to_vec(),
            lent: [lent[0].len(), lent[1].len()],
            sum: self.past.sum(packet, lent),
        });
    }

    /// A slot has sent this frame, which has this packet.
    pub fn sent(&mut self, ctr: u8, frame: &[u8], packet: &[u8]) {
        if packet[0] < 0xFE {
            self.samples.sent(&mut self.setup, packet);
        } else {
            self.answer_frame += 1;
            self.longest += u64::from(packet.len() == LONGEST);
            match self.asked.take() {
                Some(asked) => self.answered(&asked, packet),
                None => {
                    self.past.forget();
                    self.setup.forget();
                    self.keys.unknown(packet);
                }
            }
        }
        let special = |byte: u8| matches!(byte, wire::SYNC | wire::ESC);
        let escapes = frame.iter().filter(|b| **b == wire::ESC).count();
        let inside = packet.iter().filter(|b| special(**b)).count();
        let outside = usize::from(special(ctr));
        self.escaped[0] += outside as u64;
        self.escaped[1] += u64::from(inside > 0);
        self.escaped[2] += (escapes - outside - inside) as u64;
        self.wrapped += u64::from(ctr == 255);
    }

    fn answered(&mut self, asked: &Asked, answer: &[u8]) {
        self.answers.count(&asked.packet, answer);
        let what = match answer {
            [0xFF, ..] => Some(INSIDE),
            [0xFE, 0x24] => Some(NOT_INSIDE),
            _ => None,
        };
        let extension = match asked.packet.as_slice() {
            // An entry of no bytes is inside anything.
            [0xE1, _, 0, ..] => None,
            [0xF4 | 0xED | 0xE1, _, _, extension, ..] => Some(*extension),
            [0xF5 | 0xF3 | 0xF0, ..] => self.past.extension(),
            _ => None,
        };
        if let (Some(what), Some(extension)) = (what, extension) {
            let extension = usize::from(extension);
            self.memory(extension, asked.lent[extension], what);
        }
        self.past.answered(asked, answer);
        self.keys.answered(&asked.packet, answer);
        self.limits.answered(&asked.packet, answer);
        self.lists.answered(&self.setup, &asked.packet, answer);
        self.pool.answered(&self.setup, &asked.packet, answer);
        self.samples.answered(&self.setup, &asked.packet, answer);
        self.setup.answered(&asked.packet, answer);
    }

    /// Prints all of it and returns how much is wrong: not covered, or not in the paper.
    pub fn print(&self) -> usize {
        self.answers.print();
        let mut missing = self.answers.missing();
        for (name, cells) in self.groups() {
            println!("\n{}", name);
            for line in lines(&cells) {
                println!("    {}", line);
            }
            let uncovered = cells.iter().filter(|(_, count)| *count == 0);
            missing.extend(uncovered.map(|(cell, _)| format!("{}, {}", name, cell)));
        }
        println!();
        for words in &missing {
            println!("NOT COVERED: {}", words);
        }
        for words in &self.answers.beyond {
            println!("NOT IN THE PAPER: {}", words);
        }
        missing.len() + self.answers.beyond.len()
    }

    fn frames(&self) -> Vec<(String, u64)> {
        let mut frames = vec![
            ("none".to_string(), self.no_frame),
            ("answer".to_string(), self.answer_frame),
            ("longest answer".to_string(), self.longest),
        ];
        frames.extend(self.samples.frames());
        frames
    }

    /// What a frame may have that most have not.
    fn oddities(&self) -> Vec<(String, u64)> {
        let mut oddities: Vec<(String, u64)> = ["CTR escaped", "packet escaped", "sum escaped"]
            .iter()
            .map(|name| name.to_string())
            .zip(self.escaped)
            .collect();
        oddities.push(("CTR from 255 to 0".to_string(), self.wrapped));
        oddities
    }

    /// Each length with each of its uses; nothing is inside a memory of no bytes.
    fn blocks(&self, extension: usize) -> Vec<(String, u64)> {
        let mut blocks = Vec::new();
        for (length, counts) in LENGTHS.iter().zip(self.lent[extension]) {
            for (what, count) in USES.iter().zip(counts) {
                if *length > 0 || *what != USES[INSIDE] {
                    blocks.push((format!("{} {}", length, what), count));
                }
            }
        }
        blocks
    }

    /// What was received, by bytes and by slices.
    fn received(&self) -> Vec<Group> {
        let which = [0, 1, 2, 3, 4, 5, 6, 7, 10];
        vec![
            ("Numbers of a received byte", numbers(&self.byte, &which)),
            ("Numbers of a slice", numbers(&self.slice, &which)),
            ("Slices ended by a number", self.slices.ends()),
            ("Slices", self.slices.cells()),
            ("LEN refused", named(&BAD_LENS, &self.bad_len)),
        ]
    }

    /// Everything else that must be covered, by name.
    fn groups(&self) -> Vec<Group> {
        let mut groups = self.received();
        groups.extend(vec![
            ("Numbers of an event", numbers(&self.event, &[0, 8, 10])),
            ("Lists that sampled and that missed", self.samples.counts()),
            ("Packets of a sample sent whole", self.samples.packets()),
            ("Samples", self.samples.cells()),
            ("Numbers of a slot", numbers(&self.slot, &[0, 9, 10])),
            ("Frames of a slot", self.frames()),
            ("Frames with", self.oddities()),
            ("Numbers of a power-up", numbers(&self.power_up, &[0, 10])),
            ("Room lent to a slot", named(&ROOMS, &self.room)),
            ("Calibration bytes lent, and a block", self.blocks(0)),
            ("Measured bytes lent, and a block", self.blocks(1)),
            ("Sessions with", self.past.cells()),
            ("Lives with", self.keys.cells()),
            ("Lists with", self.lists.cells()),
            ("Commands with", self.limits.cells()),
            (
                "Wrong sizes of the state",
                named(&WRONG_SIZES, &self.wrong_size),
            ),
            (
                "Calls before any power-up",
                vec![("refused".to_string(), self.never_powered)],
            ),
        ]);
        groups.extend(self.pool.groups());
        groups
    }
}

/// The counts of these numbers.
fn numbers(all: &[u64; 11], which: &[usize]) -> Vec<(String, u64)> {
    which.iter().map(|n| (n.to_string(), all[*n])).collect()
}

/// The number at byte 4.
fn number(packet: &[u8]) -> u32 {
    u32::from_le_bytes([packet[4], packet[5], packet[6], packet[7]])
}

/// What was counted, by name.
fn named<N: ToString>(names: &[N], counts: &[u64]) -> Vec<(String, u64)> {
    let names = names.iter().map(N::to_string);
    names.zip(counts.iter().copied()).collect()
}

/// Few cells to a line keep the lines short.
fn lines(cells: &[(String, u64)]) -> Vec<String> {
    let long = cells.iter().any(|(name, _)| name.len() > 20);
    let words: Vec<String> = cells.iter().map(|(n, c)| format!("{}: {}", n, c)).collect();
    let lines = words.chunks(if long { 1 } else { 6 });
    lines.map(|line| line.join(", ")).collect()
}
