//! Addresses, read and written (01, Frame).

use super::Address;

/// What bit 0 of the SSID byte says: which of the two addresses this is.
#[derive(Clone, Copy)]
pub enum Role {
    Destination,
    Source,
}

/// Whether a text is one from A–Z and 0–9, padded at the end with spaces, not
/// all spaces.
fn is_padded_name(text: &str) -> bool {
    let name = text.trim_end_matches(' ');
    let allowed = |character: char| "ABCDEFGHIJKLMNOPQRSTUVWXYZ0123456789".contains(character);
    !name.is_empty() && name.chars().all(allowed)
}

/// The text of six characters, one for each byte.
fn text(characters: [u8; 6]) -> String {
    characters.iter().map(|&byte| char::from(byte)).collect()
}

/// Every number of an SSID with every bit 7: there are 32 of them.
fn numbers_and_bits() -> impl Iterator<Item = (u8, u8)> {
    (0..16).flat_map(|number| [(number, 0), (number, 1)])
}

/// Whether an address is well formed, so that it may be written.
pub fn is_right(address: Address) -> bool {
    let known = numbers_and_bits().any(|known| known == (address.number, address.bit7));
    is_padded_name(&text(address.characters)) && known
}

/// The SSID byte of a number and a bit 7, of those that are known: bit 7 is
/// free, bits 6–5 are 11, bits 4–1 are the number, bit 0 is 0 in the
/// destination and 1 in the source.
fn ssid_byte(number: u8, bit7: u8, role: Role) -> u8 {
    let last = match role {
        Role::Destination => 0,
        Role::Source => 1,
    };
    [bit7 * 128, 64, 32, number * 2, last].iter().sum()
}

/// The seven bytes of a well formed address.
pub fn bytes_of(address: Address, role: Role) -> Vec<u8> {
    let mut bytes = Vec::new();
    for character in address.characters {
        bytes.push(character.wrapping_mul(2));
    }
    bytes.push(ssid_byte(address.number, address.bit7, role));
    bytes
}

/// The address in seven bytes, or nothing if it is malformed.
pub fn read(bytes: &[u8], role: Role) -> Option<Address> {
    let bytes = <[u8; 7]>::try_from(bytes).ok()?;
    let mut characters = [0; 6];
    for place in 0..6 {
        if bytes[place] % 2 == 1 {
            return None;
        }
        characters[place] = bytes[place] / 2;
    }
    if !is_padded_name(&text(characters)) {
        return None;
    }
    let (number, bit7) = numbers_and_bits().find(|&(number, bit7)| ssid_byte(number, bit7, role) == bytes[6])?;
    Some(Address { characters, number, bit7 })
}
