//! Frames as the paper writes them, made and read without either slave.

pub const SYNC: u8 = 0x9A;
pub const ESC: u8 = 0x9B;
/// The longest packet.
pub const LONGEST: usize = 64;
/// The longest frame: one SYNC, then LEN, CTR, the longest packet and a checksum, each doubled.
pub const FRAME: usize = 1 + 2 * (2 + LONGEST + 1);

/// The message's bytes, checksum included, before they are escaped.
fn message(ctr: u8, packet: &[u8]) -> Vec<u8> {
    let mut message = vec![packet.len() as u8, ctr];
    message.extend_from_slice(packet);
    let sum: u32 = message.iter().map(|b| u32::from(*b)).sum();
    message.push((sum % 256) as u8);
    message
}

pub fn frame(ctr: u8, packet: &[u8]) -> Vec<u8> {
    escaped(&message(ctr, packet))
}

/// SYNC, then the bytes with each SYNC and ESC among them as two.
pub fn escaped(message: &[u8]) -> Vec<u8> {
    let mut frame = vec![SYNC];
    for byte in message {
        match *byte {
            SYNC => frame.extend_from_slice(&[ESC, 1]),
            ESC => frame.extend_from_slice(&[ESC, 0]),
            other => frame.push(other),
        }
    }
    frame
}

/// The CTR and the packet of a frame; none if it is not exactly the frame of that packet.
pub fn unframe(frame: &[u8]) -> Option<(u8, Vec<u8>)> {
    let mut plain = Vec::new();
    let mut rest = frame.iter().skip(1);
    while let Some(byte) = rest.next() {
        plain.push(match *byte {
            ESC => ESC.wrapping_sub(*rest.next()?),
            other => other,
        });
    }
    let packet = plain.get(2..plain.len().checked_sub(1)?)?.to_vec();
    let right = (1..=LONGEST).contains(&packet.len()) && self::frame(plain[1], &packet) == frame;
    right.then(|| (plain[1], packet))
}

pub fn hex(bytes: &[u8]) -> String {
    let pairs: Vec<String> = bytes.iter().map(|b| format!("{:02X}", b)).collect();
    pairs.join(" ")
}
