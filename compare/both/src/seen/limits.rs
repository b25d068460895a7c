//! Numbers at their limits, and which of two wrong ones is judged first: told by packet and answer.

use super::named;
use crate::wire::LONGEST;

type Case = (&'static str, fn(&[u8], &[u8]) -> bool);

const CASES: [Case; 24] = [
    ("a packet of 64 bytes done", |p, a| {
        p.len() == LONGEST && a[0] == 0xFF
    }),
    (
        "a packet of 64 bytes with a code that is unknown",
        |p, a| p.len() == LONGEST && a == [0xFE, 0x20],
    ),
    ("an UPLOAD of 63", |p, a| {
        p.starts_with(&[0xF5, 63]) && a[0] == 0xFF
    }),
    ("an UPLOAD of 64 refused", |p, a| {
        p.starts_with(&[0xF5, 64]) && a == [0xFE, 0x22]
    }),
    ("a SHORT_UPLOAD of 63", |p, a| {
        p.starts_with(&[0xF4, 63]) && a[0] == 0xFF
    }),
    ("a SHORT_UPLOAD of 64 refused", |p, a| {
        matches!(p, [0xF4, 64, _, 0 | 1, ..]) && a == [0xFE, 0x22]
    }),
    ("a DOWNLOAD of 62", |p, a| {
        p.starts_with(&[0xF0, 62]) && a == [0xFF]
    }),
    ("a DOWNLOAD of 62 short of its last byte", |p, a| {
        p.starts_with(&[0xF0, 62]) && p.len() == 63 && a == [0xFE, 0x21]
    }),
    ("a DOWNLOAD of 63 refused", |p, a| {
        p.starts_with(&[0xF0, 63]) && p.len() == LONGEST && a == [0xFE, 0x22]
    }),
    ("a SHORT_DOWNLOAD of 1", |p, a| {
        p.starts_with(&[0xED, 1]) && a == [0xFF]
    }),
    ("a SHORT_DOWNLOAD of 56", |p, a| {
        p.starts_with(&[0xED, 56]) && a == [0xFF]
    }),
    ("a SHORT_DOWNLOAD with a byte behind its data", |p, a| {
        has_head(p) && p.len() > data_end(p) && a == [0xFF]
    }),
    ("a SHORT_DOWNLOAD whose byte 2 is not 0", |p, a| {
        matches!(p, [0xED, _, 1..=255, ..]) && a == [0xFF]
    }),
    ("a SHORT_DOWNLOAD up to address 4,096", |p, a| {
        has_head(p) && block_end(p) == 4096 && a == [0xFF]
    }),
    ("a SHORT_DOWNLOAD refused one address further", |p, a| {
        has_head(p) && block_end(p) == 4097 && a == [0xFE, 0x24]
    }),
    (
        "a SHORT_DOWNLOAD refused for an address that wraps",
        |p, a| has_head(p) && block_end(p) >= 1 << 32 && a == [0xFE, 0x24],
    ),
    ("a SHORT_DOWNLOAD short of all its data", |p, a| {
        has_head(p) && p[1] > 0 && p.len() == 8 && a == [0xFE, 0x21]
    }),
    ("a SHORT_DOWNLOAD of 56 short of its last byte", |p, a| {
        p.starts_with(&[0xED, 56]) && p.len() == 63 && a == [0xFE, 0x21]
    }),
    ("a SHORT_DOWNLOAD of 0 refused", |p, a| {
        matches!(p, [0xED, 0, _, 0, ..]) && a == [0xFE, 0x22]
    }),
    ("a SHORT_DOWNLOAD of 57 refused", |p, a| {
        matches!(p, [0xED, 57, _, 0, ..]) && p.len() == LONGEST && a == [0xFE, 0x22]
    }),
    ("a SHORT_DOWNLOAD locked, its count wrong too", |p, a| {
        matches!(p, [0xED, 0 | 57..=255, ..]) && a == [0xFE, 0x25]
    }),
    (
        "a SHORT_DOWNLOAD refused for its extension, its data cut too",
        |p, a| {
            matches!(p, [0xED, 1..=56, _, 2..=255, ..])
                && p.len() < data_end(p)
                && a == [0xFE, 0x22]
        },
    ),
    (
        "a SHORT_DOWNLOAD short of data, to measured bytes too",
        |p, a| has_head(p) && p[3] == 1 && a == [0xFE, 0x21],
    ),
    (
        "a SHORT_DOWNLOAD refused to measured bytes, not inside too",
        |p, a| has_head(p) && block_end(p) > 5000 && a == [0xFE, 0x23],
    ),
];

#[derive(Default)]
pub struct Limits {
    counts: [u64; CASES.len()],
}

impl Limits {
    pub fn answered(&mut self, packet: &[u8], answer: &[u8]) {
        for (count, (_, is)) in self.counts.iter_mut().zip(CASES) {
            *count += u64::from(is(packet, answer));
        }
    }

    pub fn cells(&self) -> Vec<(String, u64)> {
        let names = CASES.map(|(name, _)| name);
        named(&names, &self.counts)
    }
}

/// A SHORT_DOWNLOAD that has its fewest bytes.
fn has_head(packet: &[u8]) -> bool {
    packet[0] == 0xED && packet.len() >= 8
}

/// Where a SHORT_DOWNLOAD's data end in its packet.
fn data_end(packet: &[u8]) -> usize {
    8 + usize::from(packet[1])
}

/// Where its block ends, not modulo anything.
fn block_end(packet: &[u8]) -> u64 {
    u64::from(super::number(packet)) + u64::from(packet[1])
}
