//! Makes frames from their parts, so that each part can be set wrong before they are put together.
pub mod entry;
pub mod header;
pub mod piece;
pub mod request;

use crate::model::{self, Address};
use crate::random::Random;

pub const FILE: u8 = 0xBB;
pub const DIRECTORY: u8 = 0xBD;

/// A file that is sent in pieces.
pub struct File {
    pub number: u32,
    pub bytes: Vec<u8>,
}

impl File {
    pub fn random(random: &mut Random, length: u32) -> File {
        File { number: file_number(random), bytes: random.bytes(length as usize) }
    }

    pub fn length(&self) -> u32 {
        self.bytes.len() as u32
    }
}

pub fn file_number(random: &mut Random) -> u32 {
    match random.below(4) {
        0 => random.pick(&[0, 1, 7, 255, 256, 65_536, 0x0100_0000, u32::MAX]),
        _ => random.word(),
    }
}

/// A well formed address, with bit 7 of its SSID byte clear or set.
pub fn address(random: &mut Random) -> Address {
    let mut characters = [b' '; 6];
    for character in characters.iter_mut().take(random.within(1, 6)) {
        *character = random.pick(b"ABCDEFGHIJKLMNOPQRSTUVWXYZ0123456789");
    }
    Address { characters, number: random.below(16) as u8, bit7: random.below(2) as u8 }
}

/// An address as the number that the library takes: six characters, the SSID and bit 7.
pub fn number_of(address: Address) -> u64 {
    let [a, b, c, d, e, f] = address.characters;
    u64::from_le_bytes([a, b, c, d, e, f, address.number, address.bit7])
}

/// The address in a number; a bit 7 above 1 makes it malformed, as an SSID above 15 does.
pub fn address_of(number: u64) -> Address {
    let [a, b, c, d, e, f, number, bit7] = number.to_le_bytes();
    Address { characters: [a, b, c, d, e, f], number, bit7 }
}

/// A number that is no well formed address, most often.
pub fn malformed_number(random: &mut Random) -> u64 {
    let mut bytes = number_of(address(random)).to_le_bytes();
    match random.below(8) {
        0 => bytes[7] = random.within(2, 255) as u8,
        1 => bytes[6] = random.within(16, 255) as u8,
        2 => bytes[0] = b' ',
        3 => bytes[..6].fill(b' '),
        4 => bytes[random.below(6)] = random.pick(b"az-/:@[`{\0\x7F\x80\xC1\xFF"),
        5 => bytes[random.below(8)] = random.byte(),
        6 => bytes[random.below(6)] |= 0x80,
        _ => bytes[..6].copy_from_slice(b"AB CD "),
    }
    u64::from_le_bytes(bytes)
}

/// The seven bytes of an address in a frame; the last bit is 0 for a destination and 1 for a source.
pub fn address_bytes(address: Address, last: u8) -> [u8; 7] {
    let [a, b, c, d, e, f] = address.characters.map(|character| character << 1);
    [a, b, c, d, e, f, address.bit7 << 7 | 0x60 | address.number << 1 | last]
}

/// A frame before it is put together.
#[derive(Clone)]
pub struct Draft {
    pub destination: [u8; 7],
    pub source: [u8; 7],
    pub control: u8,
    pub protocol: u8,
    /// Without check bytes.
    pub information: Vec<u8>,
    /// What the check bytes differ by from the right ones; a request has none.
    pub check: Option<u16>,
    /// Where the whole frame is cut off.
    pub cut: usize,
}

impl Draft {
    pub fn new(random: &mut Random, protocol: u8, information: Vec<u8>, check: Option<u16>) -> Draft {
        let (destination, source) = (address_bytes(address(random), 0), address_bytes(address(random), 1));
        Draft { destination, source, control: 0x03, protocol, information, check, cut: usize::MAX }
    }

    pub fn bytes(&self) -> Vec<u8> {
        let mut bytes = [&self.destination[..], &self.source[..]].concat();
        bytes.extend([self.control, self.protocol]);
        bytes.extend(&self.information);
        if let Some(difference) = self.check {
            bytes.extend((model::remainder(&self.information) ^ difference).to_be_bytes());
        }
        bytes.truncate(self.cut);
        bytes
    }
}
