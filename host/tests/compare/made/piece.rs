//! Makes file pieces.
use super::{Draft, File, FILE};
use crate::random::Random;

/// The longest piece.
pub const MOST: usize = 244;

/// A frame with these bytes as a piece at this offset.
pub fn with(random: &mut Random, number: u32, offset: u32, bytes: &[u8]) -> Draft {
    let mut information = vec![0x02];
    information.extend(number.to_le_bytes());
    information.push(random.byte());
    information.extend(&offset.to_le_bytes()[..3]);
    information.extend(bytes);
    Draft::new(random, FILE, information, Some(0))
}

/// A frame with a piece of a file.
pub fn of(random: &mut Random, file: &File) -> Draft {
    let start = random.below(file.bytes.len());
    let most = MOST.min(file.bytes.len() - start);
    let size = if random.chance(20) { most } else { random.within(1, most.min(30)) };
    with(random, file.number, start as u32, &file.bytes[start..start + size])
}

/// A frame with a piece of any file at any offset.
pub fn any(random: &mut Random) -> Draft {
    let size = match random.below(3) {
        0 => random.pick(&[1, 2, 243, 244]),
        1 => random.within(1, MOST),
        _ => random.within(1, 20),
    };
    let (number, offset, bytes) = (super::file_number(random), offset(random), random.bytes(size));
    with(random, number, offset, &bytes)
}

/// An offset of three bytes, often where something ends.
pub fn offset(random: &mut Random) -> u32 {
    let near = random.below(5) as u32;
    match random.below(6) {
        0 => near,
        1 => 32_766 + near,
        2 => 65_534 + near,
        3 => 0x00FF_FFFF - near,
        4 => 65_536 * random.below(256) as u32,
        _ => random.word() & 0x00FF_FFFF,
    }
}
