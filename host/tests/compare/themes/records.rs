//! Records: saved, loaded, saved again, damaged in every way, cut and lengthened.
use crate::both::{Both, Part};
use crate::damage;
use crate::lent::{enough, length, map_size, too_short, wrong_length, Lent};
use crate::made::File;
use crate::random::Random;

pub fn round(both: &mut Both, random: &mut Random) {
    let length = length(random);
    let file = File::random(random, length);
    let percent = random.pick(&[0, 5, 50, 95, 100]);
    let reception = Lent::holding(random, &file, percent);
    let record = saved(both, random, &reception);
    refused(both, random, &reception);
    loaded(both, random, &record, &reception);
    if length <= 100 {
        every_cut(both, random, &record);
        every_byte(both, random, &record);
    }
    for _ in 0..if length > 2_000 { 10 } else { 30 } {
        damaged(both, random, &record, length);
        planted(both, random, &record, length);
        other_fields(both, random, &record, length);
    }
}

fn size_of(length: u32) -> usize {
    20 + map_size(length) + length as usize
}

fn saved(both: &mut Both, random: &mut Random, reception: &Lent) -> Vec<u8> {
    let mut target = enough(random, size_of(reception.length));
    let size = both.save(reception, &mut target).answer;
    both.claim(size == Ok(size_of(reception.length)), "a record has 20 + ceil(L/8) + L bytes", &reception.shown());
    target.truncate(size_of(reception.length));
    target
}

fn refused(both: &mut Both, random: &mut Random, reception: &Lent) {
    let whole = enough(random, size_of(reception.length));
    both.save(reception, &mut too_short(random, size_of(reception.length)));
    both.save(&reception.shortened(random), &mut whole.clone());
    both.save(&reception.shortened(random), &mut too_short(random, size_of(reception.length)));
    let wrong = Lent { length: wrong_length(random), ..reception.clone() };
    both.save(&wrong, &mut whole.clone());
    both.save(&Lent { length: 0, ..reception.clone() }, &mut Vec::new());
}

// Loaded it is the same reception, and saved again the same record.
fn loaded(both: &mut Both, random: &mut Random, record: &[u8], reception: &Lent) {
    let mut into = Lent::rubbish(random, 0, reception.length);
    let answer = both.load(record, &mut into).answer;
    let told = Ok((reception.number, reception.length));
    both.claim(answer == told, "a saved record is loaded", &[Part::Bytes("record", record)]);
    let again = saved(both, random, &into);
    both.claim(again == record, "saved again it is the same record", &[Part::Bytes("record", record)]);
    both.load(record, &mut Lent::rubbish(random, 0, reception.length).shortened(random));
}

fn every_cut(both: &mut Both, random: &mut Random, record: &[u8]) {
    let into = Lent::rubbish(random, 0, 200);
    for size in 0..=record.len() {
        both.load(&record[..size], &mut into.clone());
    }
}

fn every_byte(both: &mut Both, random: &mut Random, record: &[u8]) {
    let into = Lent::rubbish(random, 0, 200);
    for place in 0..record.len() {
        let mut changed = record.to_vec();
        changed[place] ^= 1 << random.below(8);
        both.load(&changed, &mut into.clone());
        changed[place] = random.byte();
        both.load(&changed, &mut into.clone());
    }
}

fn damaged(both: &mut Both, random: &mut Random, record: &[u8], length: u32) {
    let mut damaged = record.to_vec();
    for _ in 0..random.within(1, 2) {
        damage::one(random, &mut damaged);
    }
    try_load(both, random, &damaged, length);
}

// Into space that is enough, or too short.
fn try_load(both: &mut Both, random: &mut Random, record: &[u8], length: u32) {
    let mut into = Lent::rubbish(random, 0, length);
    if random.chance(25) {
        into = into.shortened(random);
    }
    both.load(record, &mut into);
}

// A fault in one field of the record.
fn planted(both: &mut Both, random: &mut Random, record: &[u8], length: u32) {
    let (map, buffer) = (17, 20 + map_size(length));
    let mut spoilt = record.to_vec();
    let position = random.below(length as usize);
    match random.below(11) {
        0 => spoilt[10..14].copy_from_slice(&wrong_length(random).to_le_bytes()),
        // the low 16 bits of the length alone are right
        10 => spoilt[random.within(12, 13)] = random.change(),
        1 => spoilt[10..14].copy_from_slice(&(length + 1).to_le_bytes()),
        2 => spoilt[10..14].copy_from_slice(&(length - 1).to_le_bytes()),
        // spare bits, where there are any
        3 => spoilt[buffer - 4] |= 0x80,
        4 => spoilt[map..buffer - 3].iter_mut().for_each(|byte| *byte = !*byte),
        // held or not, the bit says the other
        5 => spoilt[map + position / 8] ^= 1 << (position % 8),
        6 => spoilt[buffer + position] ^= random.change(),
        7 => spoilt[random.pick(&[0, 7, 14, buffer - 3])] = random.below(6) as u8,
        8 => spoilt[random.pick(&[1, 2, 8, 9, 15, 16, buffer - 2, buffer - 1])] ^= 1 << random.below(8),
        // the second field before the first
        _ => spoilt[..14].rotate_left(7),
    }
    try_load(both, random, &spoilt, length);
}

// The fields put together otherwise: one missing, repeated, moved, longer or shorter, or a fifth behind them.
fn other_fields(both: &mut Both, random: &mut Random, record: &[u8], length: u32) {
    let buffer = 20 + map_size(length);
    let data = [&record[3..7], &record[10..14], &record[17..buffer - 3], &record[buffer..]];
    let mut fields: Vec<(u8, Vec<u8>)> = (1..).zip(data.map(<[u8]>::to_vec)).collect();
    let (one, other) = (random.below(4), random.below(4));
    match random.below(7) {
        0 => drop(fields.remove(one)),
        1 => fields.insert(other, fields[one].clone()),
        2 => fields.swap(one, other),
        3 | 4 => fields[one].1.push(0),
        5 => drop(fields[one].1.pop()),
        _ => fields.push((random.within(0, 5) as u8, random.some_bytes(0, 4))),
    }
    let mut spoilt = Vec::new();
    for (tag, data) in fields {
        spoilt.push(tag);
        spoilt.extend((data.len() as u16).to_le_bytes());
        spoilt.extend(data);
    }
    try_load(both, random, &spoilt, length);
}
