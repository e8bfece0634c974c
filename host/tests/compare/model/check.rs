//! The check of downlink information (01, Frame).

/// The exponents of the polynomial: "of 16, 12, 5 and 0".
const EXPONENTS: [usize; 4] = [16, 12, 5, 0];

/// The eight bits of a byte, the most significant first.
fn bits_from_the_top(byte: u8) -> [bool; 8] {
    [128, 64, 32, 16, 8, 4, 2, 1].map(|worth| byte & worth != 0)
}

/// What remains of all bytes by the polynomial, start 0, most significant bit
/// first: a long division on paper, over the list of the bits and 16 zeros.
pub fn remainder(bytes: &[u8]) -> u16 {
    let mut bits = Vec::with_capacity(bytes.len() * 8 + 16);
    for &byte in bytes {
        bits.extend_from_slice(&bits_from_the_top(byte));
    }
    let count = bits.len();
    bits.extend_from_slice(&[false; 16]);
    for first in 0..count {
        if bits[first] {
            for exponent in EXPONENTS {
                let place = first + (16 - exponent);
                bits[place] = !bits[place];
            }
        }
    }
    let mut value = 0;
    for &bit in &bits[count..] {
        value = value * 2 + u16::from(bit);
    }
    value
}

/// Whether information ends in its two check bytes, high byte first.
pub fn is_right(information: &[u8]) -> bool {
    if information.len() < 2 {
        return false;
    }
    let (before, check) = information.split_at(information.len() - 2);
    let expected = remainder(before);
    u16::from(check[0]) == expected / 256 && u16::from(check[1]) == expected % 256
}
