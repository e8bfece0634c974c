//! Numbers of several bytes, least significant byte first (01, What the
//! station does).

/// The number in these bytes, of which there are at most four.
pub fn number(bytes: &[u8]) -> u32 {
    let mut value = 0;
    let mut worth: u64 = 1;
    for &byte in bytes.iter().take(4) {
        value += u64::from(byte) * worth;
        worth *= 256;
    }
    value as u32
}

/// The number in these two bytes.
pub fn short_number(bytes: &[u8]) -> u16 {
    let value = number(bytes) % 65_536;
    value as u16
}

/// The lowest `count` bytes of a value, least significant byte first.
pub fn bytes_of(value: u32, count: usize) -> Vec<u8> {
    let mut bytes = Vec::new();
    let mut rest = value;
    for _ in 0..count {
        bytes.push((rest % 256) as u8);
        rest /= 256;
    }
    bytes
}
