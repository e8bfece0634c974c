//! Makes file headers: items in any order, extra items, every broken rule, and any length.
use crate::random::Random;

type Item = (u16, Vec<u8>);

// The mandatory items and their lengths.
const MANDATORY: [(u16, usize); 11] =
    [(1, 4), (2, 8), (3, 3), (4, 4), (5, 4), (6, 4), (7, 1), (8, 1), (9, 2), (10, 2), (11, 2)];

/// A rule of the file header that is broken.
#[derive(Clone, Copy, Debug, PartialEq, Eq)]
pub enum Broken {
    Mark,
    Missing,
    Repeated,
    Length,
    LengthBesideARightOne,
    UploadTwice,
    UploadLength,
    EndWithLength,
    EndInTheMiddle,
    Sum,
    SumOverItself,
    OtherNumber,
    BodyBelowTheHeader,
    BodyAboveTheLength,
    BytesAfterTheEnd,
    NoEnd,
    CutEnd,
    PastTheEnd,
    Empty,
}

pub const BROKEN: [Broken; 19] = [
    Broken::Mark,
    Broken::Missing,
    Broken::Repeated,
    Broken::Length,
    Broken::LengthBesideARightOne,
    Broken::UploadTwice,
    Broken::UploadLength,
    Broken::EndWithLength,
    Broken::EndInTheMiddle,
    Broken::Sum,
    Broken::SumOverItself,
    Broken::OtherNumber,
    Broken::BodyBelowTheHeader,
    Broken::BodyAboveTheLength,
    Broken::BytesAfterTheEnd,
    Broken::NoEnd,
    Broken::CutEnd,
    Broken::PastTheEnd,
    Broken::Empty,
];

/// A header that breaks these rules, and no other.
pub fn with(random: &mut Random, number: u32, broken: &[Broken]) -> Vec<u8> {
    let mut items = items(random, number);
    for &rule in broken {
        break_items(random, &mut items, rule);
    }
    let size = 2 + items.iter().map(|item| 3 + item.1.len()).sum::<usize>() + 3;
    settle_body(random, &mut items, size, broken);
    settle_sum(&mut items, broken);
    let mut bytes = put_together(&items);
    for &rule in broken {
        break_bytes(random, &mut bytes, rule);
    }
    bytes
}

/// A header of this length, at least 76, which keeps every rule: it is filled up with other items. Beyond 65,535 bytes
/// there is none, since item 0B has two bytes, and that rule is broken.
pub fn of_length(random: &mut Random, number: u32, length: usize) -> Vec<u8> {
    let mut items: Vec<Item> = MANDATORY.iter().map(|&(id, size)| (id, random.bytes(size))).collect();
    let mut left = length - put_together(&items).len();
    while left > 0 {
        // at least an empty item is left behind one that does not fill the rest
        let size = if left <= 3 + 255 { left - 3 } else { 255.min(left - 6) };
        items.push((other_id(random), random.bytes(size)));
        left -= 3 + size;
    }
    items[0].1 = number.to_le_bytes().to_vec();
    items[3].1 = vec![0xFF; 4];
    items[10].1 = (length.min(65_535) as u16).to_le_bytes().to_vec();
    settle_sum(&mut items, &[]);
    put_together(&items)
}

fn items(random: &mut Random, number: u32) -> Vec<Item> {
    let mut items: Vec<Item> = MANDATORY.iter().map(|&(id, length)| (id, random.bytes(length))).collect();
    items[0].1 = number.to_le_bytes().to_vec();
    if random.chance(50) {
        items.push((0x12, random.bytes(4)));
    }
    let mut space = if random.chance(50) { random.below(130) } else { 0 };
    while space >= 3 {
        let most = random.pick(&[1, 6, 60, 130]);
        let length = random.below(most.min(space - 2));
        items.push((other_id(random), random.bytes(length)));
        space -= 3 + length;
    }
    match random.below(3) {
        0 => items.sort_by_key(|item| item.0),
        _ => random.shuffle(&mut items),
    }
    items
}

// An id that is neither mandatory nor 12 nor 0, often one that is so in one of its two bytes.
fn other_id(random: &mut Random) -> u16 {
    let any = random.word() as u16;
    let id = match random.below(4) {
        0 => any & 0x00FF,
        1 => any & 0xFF00,
        2 => random.pick(&[0x0101, 0x010A, 0x1200, 0x0112, 0x0100, 0x0B00, 0x000C, 0x0011, 0x0013, 0xFFFF]),
        _ => any,
    };
    match id {
        0..=11 | 0x12 => 0x0100 + id,
        other => other,
    }
}

fn break_items(random: &mut Random, items: &mut Vec<Item>, rule: Broken) {
    let (id, length) = random.pick(&MANDATORY);
    let place = random.below(items.len() + 1);
    let here = items.iter().position(|item| item.0 == id);
    match (rule, here) {
        (Broken::Missing, Some(here)) => drop(items.remove(here)),
        (Broken::Repeated, Some(here)) => items.insert(place, items[here].clone()),
        (Broken::Length, Some(here)) => items[here].1 = other_length(random, length),
        (Broken::LengthBesideARightOne, _) => items.insert(place, (id, other_length(random, length))),
        (Broken::UploadTwice, _) => {
            items.retain(|item| item.0 != 0x12);
            items.extend([(0x12, random.bytes(4)), (0x12, random.bytes(4))]);
        }
        (Broken::UploadLength, _) => {
            items.retain(|item| item.0 != 0x12);
            items.insert(place.min(items.len()), (0x12, other_length(random, 4)));
        }
        (Broken::EndWithLength, _) => items.insert(place, (0, other_length(random, 0))),
        (Broken::EndInTheMiddle, _) => items.insert(place.min(items.len() - 1), (0, Vec::new())),
        (Broken::OtherNumber, _) => {
            if let Some(item) = items.iter_mut().find(|item| item.0 == 1 && !item.1.is_empty()) {
                let place = random.below(item.1.len());
                item.1[place] ^= random.change();
            }
        }
        _ => (),
    }
}

// Data of another length than this, most often one more or one less.
fn other_length(random: &mut Random, length: usize) -> Vec<u8> {
    let other = match random.below(4) {
        0 => random.below(9),
        1 => length.saturating_sub(1),
        _ => length + 1,
    };
    random.bytes(if other == length { length + 1 } else { other })
}

// Sets items 0B and 04: on both sides of both limits.
fn settle_body(random: &mut Random, items: &mut [Item], size: usize, broken: &[Broken]) {
    let mut body = if random.chance(40) { size } else { random.within(size, 65_535) };
    let mut length = if random.chance(40) { body } else { body + random.word() as usize % 100_000 };
    if broken.contains(&Broken::BodyBelowTheHeader) {
        body = if random.chance(60) { size - 1 } else { random.within(1, size - 1) };
    }
    if broken.contains(&Broken::BodyAboveTheLength) {
        length = if random.chance(60) { body - 1 } else { random.below(body) };
    }
    for item in items {
        match (item.0, item.1.len()) {
            (4, 4) => item.1 = (length as u32).to_le_bytes().to_vec(),
            (11, 2) => item.1 = (body as u16).to_le_bytes().to_vec(),
            _ => (),
        }
    }
}

fn settle_sum(items: &mut [Item], broken: &[Broken]) {
    let itself = broken.contains(&Broken::SumOverItself);
    if let Some(place) = items.iter().position(|item| item.0 == 10 && item.1.len() == 2) {
        items[place].1.fill(u8::from(itself));
        let mut sum = put_together(items).iter().map(|&byte| u32::from(byte)).sum::<u32>() as u16;
        if broken.contains(&Broken::Sum) {
            sum ^= 1 << (sum % 16);
        }
        items[place].1 = sum.to_le_bytes().to_vec();
    }
}

fn put_together(items: &[Item]) -> Vec<u8> {
    let mut bytes = vec![0xAA, 0x55];
    for (id, data) in items {
        bytes.extend(id.to_le_bytes());
        bytes.push(data.len() as u8);
        bytes.extend(data);
    }
    bytes.extend([0; 3]);
    bytes
}

fn break_bytes(random: &mut Random, bytes: &mut Vec<u8>, rule: Broken) {
    let length = bytes.len();
    match rule {
        Broken::Mark if length >= 2 => bytes[random.below(2)] ^= random.change(),
        Broken::BytesAfterTheEnd => {
            let more = random.pick(&[1, 2, 3, 10]);
            bytes.extend(if random.chance(50) { vec![0; more] } else { random.bytes(more) });
        }
        Broken::NoEnd if length >= 3 => bytes.truncate(length - 3),
        Broken::CutEnd if length >= 2 => bytes.truncate(length - random.within(1, 2)),
        Broken::PastTheEnd if length >= 3 => {
            bytes[length - 3] = random.pick(&[0x00, 0x20]);
            bytes[length - 1] = random.change();
        }
        Broken::Empty => bytes.clear(),
        _ => (),
    }
}
