//! A small test bench around the slave; packets and frames are written as hex text.
//!
//! Here stands what the paper answers: of each check and rule an example, and what only the inside shows. Every length,
//! value, order and count, and calls by chance, are made to both slaves by compare/both, and not again here.

mod allocation;
mod bench_sheet;
mod events_and_slots;
mod seeds;
mod sizes;
mod slices;
mod table;
mod wire;
mod wrong_keys;

use crate::session::Session;
use crate::Slave;

pub const CONNECT: &str = "FF 00";

pub struct Bench {
    pub slave: Slave,
    pub cal: Vec<u8>,
    pub meas: Vec<u8>,
}

pub fn bytes(hex: &str) -> Vec<u8> {
    hex.split_whitespace()
        .map(|pair| u8::from_str_radix(pair, 16).unwrap())
        .collect()
}

pub fn hex(bytes: &[u8]) -> String {
    let pairs: Vec<String> = bytes.iter().map(|b| format!("{:02X}", b)).collect();
    pairs.join(" ")
}

/// So many bytes, each one more than the byte before.
pub fn rising(first: u8, count: u8) -> String {
    hex(&(0..count).map(|i| first + i).collect::<Vec<u8>>())
}

/// The sizes of the fewest entries that have so many bytes.
pub fn sizes(mut bytes: u8) -> Vec<u8> {
    let mut sizes = Vec::new();
    while bytes > 0 {
        sizes.push(bytes.min(4));
        bytes -= bytes.min(4);
    }
    sizes
}

/// A session that has just begun.
pub fn fresh() -> Session {
    let mut session = Session::closed();
    session.open = true;
    session
}

/// A frame made without the slave's own writer, so that both are judged.
pub fn frame(ctr: u8, packet: &[u8]) -> Vec<u8> {
    let mut message = vec![packet.len() as u8, ctr];
    message.extend_from_slice(packet);
    let total: u32 = message.iter().map(|b| u32::from(*b)).sum();
    message.push((total % 256) as u8);
    let mut out = vec![0x9A];
    for byte in message {
        match byte {
            0x9A => out.extend_from_slice(&[0x9B, 0x01]),
            0x9B => out.extend_from_slice(&[0x9B, 0x00]),
            _ => out.push(byte),
        }
    }
    out
}

/// The CTR and the packet of a frame, judged without the slave's own reader.
pub fn unframe(frame: &[u8]) -> (u8, Vec<u8>) {
    assert_eq!(frame[0], 0x9A);
    let mut message = Vec::new();
    let mut rest = frame[1..].iter();
    while let Some(byte) = rest.next() {
        assert_ne!(*byte, 0x9A);
        message.push(match byte {
            0x9B => 0x9B - rest.next().unwrap(),
            _ => *byte,
        });
    }
    let packet = message[2..message.len() - 1].to_vec();
    assert_eq!(packet.len(), message[0] as usize);
    assert_eq!(self::frame(message[1], &packet), frame);
    (message[1], packet)
}

/// The key to a seed, reckoned here by the paper.
pub fn key(resource: u8, seed: u32) -> u32 {
    let offset = if resource == 0x01 { 0xD05E } else { 0xDA00 };
    let sum = (u64::from(seed) + offset) % (1 << 32);
    ((sum << 8) % (1 << 32) + (sum >> 24)) as u32
}

pub fn unlock_packet(key: u32) -> String {
    format!("F7 04 {}", hex(&key.to_le_bytes()))
}

pub fn alloc_daq(count: u16) -> String {
    format!("D5 00 {}", hex(&count.to_le_bytes()))
}

pub fn alloc_odt(list: u16, count: u8) -> String {
    format!("D4 00 {} {:02X}", hex(&list.to_le_bytes()), count)
}

pub fn alloc_entry(list: u16, odt: u8, count: u8) -> String {
    let list = hex(&list.to_le_bytes());
    format!("D3 00 {} {:02X} {:02X}", list, odt, count)
}

impl Bench {
    pub fn new() -> Bench {
        Bench {
            slave: Slave::power_up(1),
            cal: vec![0; 4096],
            meas: vec![0; 4096],
        }
    }

    /// A session with both locks open.
    pub fn open() -> Bench {
        let mut bench = Bench::new();
        bench.ask(CONNECT);
        bench.unlock(0x01);
        bench.unlock(0x04);
        bench
    }

    /// The same with four lists of two ODTs of sixteen entries each.
    pub fn with_lists() -> Bench {
        let mut bench = Bench::open();
        bench.allocate(&[[16, 16]; 4]);
        bench
    }

    /// Gives all back and takes these lists: of each the entries of its ODTs.
    pub fn allocate<L: AsRef<[u8]>>(&mut self, lists: &[L]) {
        self.good("D6");
        self.good(&alloc_daq(lists.len() as u16));
        let lists = || (0u16..).zip(lists.iter().map(L::as_ref));
        for (list, odts) in lists().filter(|(_, odts)| !odts.is_empty()) {
            self.good(&alloc_odt(list, odts.len() as u8));
        }
        for (list, odts) in lists() {
            for (odt, entries) in (0u8..).zip(odts).filter(|(_, entries)| **entries > 0) {
                self.good(&alloc_entry(list, odt, *entries));
            }
        }
    }

    pub fn receive(&mut self, byte: u8) -> u32 {
        self.slave.receive_byte(&mut self.cal, &self.meas, byte)
    }

    /// A slice: the number that ended it, and how many bytes it took.
    pub fn slice(&mut self, bytes: &[u8]) -> (u32, usize) {
        self.slave.receive(&mut self.cal, &self.meas, bytes)
    }

    /// The numbers that the bytes return, one by one.
    pub fn wire(&mut self, hex: &str) -> Vec<u32> {
        bytes(hex).into_iter().map(|b| self.receive(b)).collect()
    }

    /// Sends a whole message; its last byte's number is what counts.
    pub fn send(&mut self, packet: &str) -> u32 {
        let frame = frame(0x77, &bytes(packet));
        let (last, rest) = frame.split_last().unwrap();
        for byte in rest {
            assert_eq!(self.receive(*byte), 0);
        }
        self.receive(*last)
    }

    /// One slot; the frame in hex, or "-".
    pub fn slot(&mut self) -> String {
        let mut out = [0xEE; 140];
        let size = self.slave.slot(&mut out) as usize;
        assert!(size <= 135);
        assert!(out[size..].iter().all(|b| *b == 0xEE));
        if size == 0 {
            "-".to_string()
        } else {
            hex(&out[..size])
        }
    }

    /// One slot; the packet alone.
    pub fn packet(&mut self) -> String {
        let ctr = self.slave.ctr;
        let frame = self.slot();
        if frame == "-" {
            return frame;
        }
        let (sent, packet) = unframe(&bytes(&frame));
        assert_eq!(sent, ctr);
        hex(&packet)
    }

    /// Sends a command that must be taken, and fetches its answer.
    pub fn ask(&mut self, packet: &str) -> String {
        assert_eq!(self.send(packet), 1, "{}", packet);
        self.packet()
    }

    /// Has answers sent until the next frame carries this CTR.
    pub fn until_ctr(&mut self, ctr: u8) {
        for _ in 0..256 {
            if self.slave.ctr == ctr {
                return;
            }
            self.ask("FC");
        }
        panic!("the counter never came to {:02X}", ctr);
    }

    pub fn good(&mut self, packet: &str) {
        assert_eq!(self.ask(packet), "FF", "{}", packet);
    }

    /// Sends a command that must be refused with this answer and change nothing.
    pub fn refused(&mut self, packet: &str, answer: &str) {
        let before = self.slave.clone();
        let (cal, meas) = (self.cal.clone(), self.meas.clone());
        assert_eq!(self.ask(packet), answer, "{}", packet);
        assert_eq!(self.slave.session, before.session, "{}", packet);
        assert_eq!(self.slave.generator, before.generator, "{}", packet);
        assert_eq!(self.slave.wrong_keys, before.wrong_keys, "{}", packet);
        assert_eq!((&self.cal, &self.meas), (&cal, &meas), "{}", packet);
    }

    /// A question: its answer is as said, and nothing changes.
    pub fn told(&mut self, packet: &str, answer: &str) {
        self.refused(packet, answer);
    }

    pub fn seed(&mut self, resource: u8) -> u32 {
        let answer = bytes(&self.ask(&format!("F8 00 {:02X}", resource)));
        assert_eq!(answer[..2], [0xFF, 0x04]);
        assert_eq!(answer.len(), 6);
        u32::from_le_bytes([answer[2], answer[3], answer[4], answer[5]])
    }

    /// Asks for a seed and sends the right key.
    pub fn unlock(&mut self, resource: u8) -> String {
        let key = key(resource, self.seed(resource));
        self.ask(&unlock_packet(key))
    }

    /// In a session of its own asks for a seed and sends a wrong key.
    pub fn wrong_key(&mut self, resource: u8) {
        self.ask(CONNECT);
        let key = key(resource, self.seed(resource));
        assert_eq!(self.ask(&unlock_packet(key ^ 1)), "FE 25");
        assert_eq!(self.slave.session, Session::closed());
    }

    /// Points at the list's ODT and writes entries of these sizes from measured address 0 on.
    pub fn entries(&mut self, list: u8, odt: u8, sizes: &[u8]) {
        self.good(&format!("E2 00 {:02X} 00 {:02X} 00", list, odt));
        let mut address = 0;
        for size in sizes {
            self.good(&format!("E1 FF {:02X} 01 {:02X} 00 00 00", size, address));
            address += size;
        }
    }

    /// Sets the list's mode to this event.
    pub fn mode(&mut self, list: u8, event: u8) {
        self.good(&format!("E0 10 {:02X} 00 {:02X} 00 01 00", list, event));
    }

    /// Sets up and starts a list, one of two ODTs with others like it.
    pub fn run(&mut self, list: u8, event: u8, odt0: &[u8], odt1: &[u8]) {
        self.entries(list, 0, odt0);
        self.entries(list, 1, odt1);
        self.mode(list, event);
        self.starts(list, 2 * list);
    }

    /// The list is started, and its first packet has this number.
    pub fn starts(&mut self, list: u8, first: u8) {
        let answer = self.ask(&format!("DE 01 {:02X} 00", list));
        assert_eq!(answer, format!("FF {:02X}", first));
    }

    pub fn event(&mut self, event: u32, clock: u16) -> u32 {
        self.slave.event(&self.cal, &self.meas, event, clock)
    }
}
