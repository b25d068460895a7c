//! Commands as packets, and the key to a seed: the paper's, made without either slave.

pub const CALIBRATION: u8 = 0x01;
pub const LISTS: u8 = 0x04;

/// The paper's key, reckoned apart from both slaves.
pub fn key(resource: u8, seed: u32) -> u32 {
    let offset = if resource == CALIBRATION {
        0xD05E
    } else {
        0xDA00
    };
    let sum = (u64::from(seed) + offset) % (1 << 32);
    ((sum << 8) % (1 << 32) + (sum >> 24)) as u32
}

pub fn unlock_packet(key: u32) -> Vec<u8> {
    let mut packet = vec![0xF7, 4];
    packet.extend_from_slice(&key.to_le_bytes());
    packet
}

pub fn alloc_lists(count: u16) -> Vec<u8> {
    let [low, high] = count.to_le_bytes();
    vec![0xD5, 0, low, high]
}

pub fn alloc_odts(list: u16, count: u8) -> Vec<u8> {
    let [low, high] = list.to_le_bytes();
    vec![0xD4, 0, low, high, count]
}

pub fn alloc_entries(list: u16, odt: u8, count: u8) -> Vec<u8> {
    let [low, high] = list.to_le_bytes();
    vec![0xD3, 0, low, high, odt, count]
}

pub fn download(count: u8, data: &[u8]) -> Vec<u8> {
    [&[0xF0, count][..], data].concat()
}

pub fn short_download(count: u8, extension: u8, address: u32, data: &[u8]) -> Vec<u8> {
    let mut packet = with_address([0xED, count, 0, extension], address);
    packet.extend_from_slice(data);
    packet
}

/// So many bytes, of which each tells its place.
pub fn rising(count: usize) -> Vec<u8> {
    (1..=count).map(|byte| byte as u8).collect()
}

/// Four bytes, then an address or a size.
pub fn with_address(front: [u8; 4], address: u32) -> Vec<u8> {
    let mut packet = front.to_vec();
    packet.extend_from_slice(&address.to_le_bytes());
    packet
}
