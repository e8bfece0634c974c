//! The file header at the start of a received file, as far as it is held. The library reads it.
use super::bytes::characters;
use thoweldeck::{Header, Reception};

/// The header of a reception's file, where it is held whole and keeps the rules.
pub fn of(reception: &Reception) -> Option<Header> {
    let held = reception.holes().next().map_or(reception.length(), |hole| hole.start);
    Header::read(&reception.buffer()[..held as usize], reception.number()).ok()
}

/// The file's name and extension, as `SURVEY.TXT`.
pub fn name(header: &Header) -> String {
    let (name, extension) = (characters(&header.name), characters(&header.extension));
    match (name.trim_end(), extension.trim_end()) {
        (name, "") => name.to_string(),
        (name, extension) => format!("{name}.{extension}"),
    }
}

/// The sum of bytes modulo 65,536, as item 09 tells it of a body and item 0A of a header. (Document 002 says XOR of both;
/// for the header its own bytes show a sum.)
pub fn sum(bytes: &[u8]) -> u16 {
    bytes.iter().fold(0, |sum: u16, byte| sum.wrapping_add(u16::from(*byte)))
}

#[cfg(test)]
mod tests {
    use super::*;

    #[test]
    fn a_sum_is_taken_modulo_65536() {
        assert_eq!(sum(&[]), 0);
        assert_eq!(sum(&[1, 2, 0xFF]), 0x0102);
        assert_eq!(sum(&[0xFF; 258]), 254);
    }
}
