//! Damage of bytes as a radio link or a disk does it, and check bytes and sums made right again after it.
use crate::model;
use crate::random::Random;

/// One damage: a bit, a byte, an exchange, a removal, an insertion, a cut or something longer.
pub fn one(random: &mut Random, bytes: &mut Vec<u8>) {
    if bytes.is_empty() {
        bytes.push(random.byte());
        return;
    }
    let (place, other) = (random.below(bytes.len()), random.below(bytes.len()));
    match random.below(8) {
        0 => bytes[place] ^= 1 << random.below(8),
        1 => bytes[place] ^= random.change(),
        2 => bytes[place] = random.pick(&[0x00, 0x01, 0x7F, 0x80, 0xFF]),
        3 => bytes.swap(place, other),
        4 => drop(bytes.remove(place)),
        5 => bytes.insert(place, random.byte()),
        6 => bytes.truncate(place),
        _ => bytes.extend(random.some_bytes(1, 6)),
    }
}

/// One or two damages of a frame; then often the check, and the header's sum, are made right again.
pub fn frame(random: &mut Random, bytes: &mut Vec<u8>) {
    for _ in 0..random.within(1, 2) {
        one(random, bytes);
    }
    if random.chance(30) {
        repair_sum(bytes);
    }
    if random.chance(70) {
        repair_check(bytes);
    }
}

/// Makes the check bytes of a frame right.
pub fn repair_check(frame: &mut [u8]) {
    if frame.len() >= 18 {
        let place = frame.len() - 18;
        let (before, check) = frame[16..].split_at_mut(place);
        check.copy_from_slice(&model::remainder(before).to_be_bytes());
    }
}

/// Makes item 0A of a directory entry right, where its head can be found.
pub fn repair_sum(frame: &mut [u8]) {
    let header = 16 + 17;
    if frame.len() >= header + 5 {
        let end = frame.len() - 2;
        repair_header(&mut frame[header..end]);
    }
}

/// Makes item 0A of a file header right, where its head can be found.
pub fn repair_header(header: &mut [u8]) {
    let head = header.windows(3).position(|bytes| bytes == [0x0A, 0, 2]);
    if let Some(place) = head.map(|place| place + 3).filter(|place| place + 2 <= header.len()) {
        header[place..place + 2].fill(0);
        let sum: u32 = header.iter().map(|&byte| u32::from(byte)).sum();
        header[place..place + 2].copy_from_slice(&(sum as u16).to_le_bytes());
    }
}
