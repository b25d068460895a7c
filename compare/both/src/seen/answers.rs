//! Each command with each answer that the paper lets it have.

/// A row each. A command has a second one where the same answer comes for two reasons.
const ROWS: [(u8, &str, &[u8]); 28] = [
    (0xFF, "CONNECT", &[0xFF, 0x21, 0x22]),
    (0xFE, "DISCONNECT", &[0xFF]),
    (0xFD, "GET_STATUS", &[0xFF]),
    (0xFC, "SYNCH", &[0x00]),
    (0xF8, "GET_SEED", &[0xFF, 0x21, 0x25, 0x29, 0x22]),
    (0xF8, "GET_SEED, none due", &[0xFF]),
    (0xF7, "UNLOCK", &[0xFF, 0x21, 0x25, 0x29, 0x22]),
    (0xF7, "UNLOCK, key cut", &[0x21]),
    (0xF6, "SET_MTA", &[0xFF, 0x21, 0x22]),
    (0xF5, "UPLOAD", &[0xFF, 0x21, 0x29, 0x22, 0x24]),
    (0xF4, "SHORT_UPLOAD", &[0xFF, 0x21, 0x22, 0x24]),
    (0xF3, "BUILD_CHECKSUM", &[0xFF, 0x21, 0x29, 0x22, 0x24]),
    (
        0xF0,
        "DOWNLOAD",
        &[0xFF, 0x21, 0x25, 0x29, 0x22, 0x23, 0x24],
    ),
    (0xF0, "DOWNLOAD, data cut", &[0x21]),
    (
        0xED,
        "SHORT_DOWNLOAD",
        &[0xFF, 0x21, 0x25, 0x22, 0x23, 0x24],
    ),
    (0xED, "SHORT_DOWNLOAD, cut", &[0x21]),
    (0xE3, "CLEAR_DAQ_LIST", &[0xFF, 0x21, 0x25, 0x22, 0x11]),
    (0xE2, "SET_DAQ_PTR", &[0xFF, 0x21, 0x25, 0x22]),
    (
        0xE1,
        "WRITE_DAQ",
        &[0xFF, 0x21, 0x25, 0x29, 0x22, 0x11, 0x24],
    ),
    (0xE0, "SET_DAQ_LIST_MODE", &[0xFF, 0x21, 0x25, 0x22, 0x11]),
    (0xDE, "START_STOP_DAQ_LIST", &[0xFF, 0x21, 0x25, 0x22, 0x2A]),
    (0xDD, "START_STOP_SYNCH", &[0xFF, 0x21, 0x25, 0x22, 0x2A]),
    (0xDA, "GET_DAQ_PROCESSOR", &[0xFF, 0x25]),
    (0xD9, "GET_DAQ_RESOLUTION", &[0xFF, 0x25]),
    (0xD6, "FREE_DAQ", &[0xFF, 0x25]),
    (0xD5, "ALLOC_DAQ", &[0xFF, 0x21, 0x25, 0x29, 0x22, 0x30]),
    (0xD4, "ALLOC_ODT", &[0xFF, 0x21, 0x25, 0x29, 0x22, 0x30]),
    (
        0xD3,
        "ALLOC_ODT_ENTRY",
        &[0xFF, 0x21, 0x25, 0x29, 0x22, 0x11, 0x30],
    ),
];
/// The row of every other code.
const UNKNOWN: usize = ROWS.len();
const UNKNOWN_ANSWERS: &[u8] = &[0x20];

/// FF for a good answer, else the byte after FE.
const COLUMNS: [u8; 12] = [
    0xFF, 0x00, 0x20, 0x21, 0x25, 0x29, 0x22, 0x11, 0x23, 0x24, 0x2A, 0x30,
];

#[derive(Default)]
pub struct Answers {
    counts: [[u64; COLUMNS.len()]; UNKNOWN + 1],
    /// An answer that the paper does not have is no cover but a failure.
    pub beyond: Vec<String>,
}

impl Answers {
    pub fn count(&mut self, packet: &[u8], answer: &[u8]) {
        let row = row(packet, answer);
        let kind = match answer {
            [0xFE, error, ..] => Some(*error),
            [0xFF, ..] => Some(0xFF),
            _ => None,
        };
        let column = COLUMNS.iter().position(|c| Some(*c) == kind);
        match column {
            Some(column) if reachable(row).contains(&COLUMNS[column]) => {
                self.counts[row][column] += 1;
            }
            _ => self
                .beyond
                .push(format!("{:02X} answered {:02X?}", packet[0], answer)),
        }
    }

    pub fn print(&self) {
        print!("{:22}", "Answers by command");
        for answer in COLUMNS {
            match answer {
                0xFF => print!("{:>7}", "FF"),
                _ => print!("{:>7}", format!("FE {:02X}", answer)),
            }
        }
        println!();
        for (row, counts) in self.counts.iter().enumerate() {
            print!("{:22}", title(row));
            for (column, count) in counts.iter().enumerate() {
                if reachable(row).contains(&COLUMNS[column]) {
                    print!("{:>7}", count);
                } else {
                    print!("{:>7}", ".");
                }
            }
            println!();
        }
    }

    /// What never came.
    pub fn missing(&self) -> Vec<String> {
        let mut missing = Vec::new();
        for (row, counts) in self.counts.iter().enumerate() {
            for (column, count) in counts.iter().enumerate() {
                if *count == 0 && reachable(row).contains(&COLUMNS[column]) {
                    missing.push(format!("{} with {:02X}", title(row), COLUMNS[column]));
                }
            }
        }
        missing
    }
}

/// A command's second row is for a seed of no bytes, and for a key or data that the packet lacks.
fn row(packet: &[u8], answer: &[u8]) -> usize {
    let second = match packet[0] {
        0xF8 => answer.starts_with(&[0xFF, 0]),
        0xF7 | 0xF0 => packet.len() >= 2 && answer.starts_with(&[0xFE, 0x21]),
        0xED => packet.len() >= 8 && answer.starts_with(&[0xFE, 0x21]),
        _ => false,
    };
    let first = ROWS.iter().position(|r| r.0 == packet[0]);
    first.map_or(UNKNOWN, |row| row + usize::from(second))
}

fn reachable(row: usize) -> &'static [u8] {
    ROWS.get(row).map_or(UNKNOWN_ANSWERS, |r| r.2)
}

fn title(row: usize) -> String {
    ROWS.get(row)
        .map_or("every other code".to_string(), |(code, name, _)| {
            format!("{:02X} {}", code, name)
        })
}
