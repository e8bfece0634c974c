//! Faults that are planted in a frame before it is put together, at least one for each reason of a frame.
use crate::made::request::hole_bytes;
use crate::made::Draft;
use crate::random::Random;

#[derive(Clone, Copy, Debug, PartialEq, Eq)]
pub enum Fault {
    Below16,
    Destination,
    Source,
    Control,
    Protocol,
    Over255,
    /// Below this size of the information.
    TooShort(usize),
    Check,
    PieceFlags,
    EntryFlags,
    RequestFlags,
    NotWhole,
    NoData,
    NoHeader,
    BlockSize,
    Count,
    OddBytes,
    Hole,
}

pub const PIECE: [Fault; 10] = [
    Fault::Below16,
    Fault::Destination,
    Fault::Source,
    Fault::Control,
    Fault::Protocol,
    Fault::Over255,
    Fault::TooShort(11),
    Fault::Check,
    Fault::PieceFlags,
    Fault::NoData,
];

pub const ENTRY: [Fault; 11] = [
    Fault::Below16,
    Fault::Destination,
    Fault::Source,
    Fault::Control,
    Fault::Protocol,
    Fault::Over255,
    Fault::TooShort(19),
    Fault::Check,
    Fault::EntryFlags,
    Fault::NotWhole,
    Fault::NoHeader,
];

pub const REQUEST: [Fault; 12] = [
    Fault::Below16,
    Fault::Destination,
    Fault::Source,
    Fault::Control,
    Fault::Protocol,
    Fault::Over255,
    Fault::TooShort(7),
    Fault::RequestFlags,
    Fault::BlockSize,
    Fault::Count,
    Fault::OddBytes,
    Fault::Hole,
];

impl Fault {
    /// The reason that a frame with this fault alone is refused for; a hole may by chance still be right.
    pub fn reason(self) -> Option<u8> {
        match self {
            Fault::Below16 | Fault::TooShort(_) => Some(1),
            Fault::Destination | Fault::Source => Some(2),
            Fault::Control => Some(3),
            Fault::Protocol => Some(4),
            Fault::PieceFlags | Fault::EntryFlags | Fault::RequestFlags => Some(5),
            Fault::Check => Some(6),
            Fault::Over255 | Fault::NoData | Fault::BlockSize | Fault::Count | Fault::OddBytes => Some(7),
            Fault::NoHeader => Some(8),
            Fault::NotWhole => Some(14),
            Fault::Hole => None,
        }
    }
}

/// Plants one fault of a list.
pub fn single(random: &mut Random, draft: &mut Draft, faults: &[Fault]) {
    let fault = random.pick(faults);
    plant(random, draft, fault);
}

pub fn plant(random: &mut Random, draft: &mut Draft, fault: Fault) {
    match fault {
        Fault::Below16 => draft.cut = random.below(16),
        Fault::Destination => spoil_address(random, &mut draft.destination),
        Fault::Source => spoil_address(random, &mut draft.source),
        Fault::Control => draft.control ^= random.change(),
        Fault::Protocol if random.chance(50) => draft.protocol ^= 0xBB ^ 0xBD,
        Fault::Protocol => draft.protocol ^= random.change(),
        Fault::Over255 => {
            let size = random.pick(&[256, 257, 260, 300]) - if draft.check.is_some() { 2 } else { 0 };
            let more = random.bytes(size);
            draft.information.extend(&more[draft.information.len().min(size)..]);
        }
        Fault::TooShort(least) => shorten(random, draft, least),
        Fault::Check => draft.check = Some(1 << random.below(16)),
        Fault::NoData => draft.information.truncate(9),
        Fault::NoHeader => draft.information.truncate(17),
        _ => plant_in_information(random, &mut draft.information, fault),
    }
}

// Makes the information shorter than a size; its check, where it has room for one, is right.
fn shorten(random: &mut Random, draft: &mut Draft, least: usize) {
    let size = random.below(least);
    match draft.check {
        Some(_) if size >= 2 => draft.information.truncate(size - 2),
        Some(_) => draft.cut = draft.cut.min(16 + size),
        None => draft.information.truncate(size),
    }
}

fn plant_in_information(random: &mut Random, information: &mut Vec<u8>, fault: Fault) {
    if information.len() < 7 {
        return;
    }
    match fault {
        Fault::PieceFlags => information[0] ^= random.change(),
        Fault::EntryFlags => information[0] |= random.pick(&[0x01, 0x02, 0x04, 0x08, 0x10, 0x80, 0x9F]),
        Fault::RequestFlags => information[0] = random.pick(&[0x00, 0x01, 0x02, 0x12, 0x13, 0x30, 0x90, 0x91, 0xFF]),
        Fault::NotWhole if random.chance(50) => information[0] &= 0xDF,
        Fault::NotWhole if information.len() >= 9 => information[random.within(5, 8)] = random.change(),
        Fault::BlockSize => information[random.within(5, 6)] ^= random.change(),
        Fault::Count if random.chance(50) && information.len() > 7 => information[0] = 0x10,
        Fault::Count => {
            information.truncate(7);
            information[0] = 0x11;
        }
        Fault::OddBytes => information.extend(random.some_bytes(1, 4)),
        Fault::Hole if information.len() >= 12 => spoil_hole(random, information),
        _ => (),
    }
}

// Breaks one rule of a request's holes, most often.
fn spoil_hole(random: &mut Random, information: &mut [u8]) {
    let count = (information.len() - 7) / 5;
    let index = random.below(count);
    let next = (index + 1) % count;
    let (start, length) = hole_at(information, index);
    let other = hole_at(information, next);
    let changed = match random.below(8) {
        0 => (start, 0),
        1 => (start + 65_536, length),
        2 => (32_768 - length.min(32_768) + random.below(3) as u32, length),
        3 => (0x00FF_FFFF - random.below(3) as u32, length),
        // touching the next, one position before it, or into it
        4 => (start, other.0.saturating_sub(start) + random.below(3) as u32),
        5 => ((start + length + random.below(3) as u32).saturating_sub(1), length),
        6 => (start, 65_535 - random.below(2) as u32),
        _ => other,
    };
    if random.chance(20) {
        information[7 + 5 * next..12 + 5 * next].copy_from_slice(&hole_bytes((start, length)));
    }
    information[7 + 5 * index..12 + 5 * index].copy_from_slice(&hole_bytes(changed));
}

fn hole_at(information: &[u8], index: usize) -> (u32, u32) {
    let bytes = &information[7 + 5 * index..12 + 5 * index];
    (u32::from_le_bytes([bytes[0], bytes[1], bytes[2], 0]), u32::from(u16::from_le_bytes([bytes[3], bytes[4]])))
}

// Breaks one rule of an address. Bit 7 of its SSID byte is free, and so no fault.
fn spoil_address(random: &mut Random, address: &mut [u8; 7]) {
    let place = random.below(6);
    match random.below(9) {
        0 => address[place] |= 1,
        1 => address[place] = random.pick(b"az") << 1,
        2 => address[0] = b' ' << 1,
        3 => address[..3].copy_from_slice(&[b'A' << 1, b' ' << 1, b'B' << 1]),
        4 => address[..6].fill(b' ' << 1),
        5 => address[place] = random.pick(b"/:@[-") << 1,
        6 => address[6] &= random.pick(&[0xBF, 0xDF, 0x9F]),
        7 => address[6] ^= 1,
        _ => address[random.below(6)] |= 0x81,
    }
}
