//! Holes: listed from every place and repeated from 0; which positions are held, and how many.
use crate::both::{Both, Part};
use crate::lent::{enough, length, map_size, too_short, wrong_length, Lent};
use crate::made::File;
use crate::random::Random;

pub fn round(both: &mut Both, random: &mut Random) {
    let length = length(random);
    let map = map(random, length);
    if length <= 400 {
        every_place(both, length, &map);
    } else {
        some_places(both, random, length, &map);
    }
    both.count_held(length, &map);
    repeated(both, length, &map);
    for _ in 0..3 {
        refused(both, random, length, &map);
    }
}

/// A map of few or many runs, of single positions, of all or none; spare bits and bytes beyond are rubbish.
pub fn map(random: &mut Random, length: u32) -> Vec<u8> {
    let size = map_size(length);
    let mut map = enough(random, size);
    match random.below(8) {
        0 => map,
        1 => {
            map[..size].fill(random.pick(&[0x00, 0xFF, 0x55, 0xAA, 0x0F, 0xF0, 0x80, 0x01]));
            map
        }
        2 => {
            // all is held but one position
            map[..size].fill(0xFF);
            let position = random.below(length as usize);
            map[position / 8] ^= 1 << (position % 8);
            map
        }
        _ => {
            let file = File { number: 0, bytes: vec![0; length as usize] };
            let percent = random.pick(&[2, 20, 50, 80, 98]);
            Lent::holding(random, &file, percent).map
        }
    }
}

fn every_place(both: &mut Both, length: u32, map: &[u8]) {
    for place in 0..length + 3 {
        both.list(length, map, place);
        both.is_held(length, map, place);
    }
}

fn some_places(both: &mut Both, random: &mut Random, length: u32, map: &[u8]) {
    for _ in 0..20 {
        let place = random.below(length as usize + 2) as u32;
        both.list(length, map, place);
        both.is_held(length, map, place);
    }
}

// From 0, each time from the end of the last: every hole once, and exactly the positions that are not held.
fn repeated(both: &mut Both, length: u32, map: &[u8]) {
    let mut covered = vec![false; length as usize];
    let (mut place, mut count) = (0, 0);
    while let Ok((start, size)) = both.list(length, map, place).answer {
        covered[start as usize..(start + size) as usize].fill(true);
        place = start + size;
        count += size;
        if length > 2_000 && count > 2_000 {
            return;
        }
    }
    let unheld: Vec<bool> = (0..length).map(|position| map[position as usize / 8] >> (position % 8) & 1 == 0).collect();
    let input = [Part::Number("length", length.into()), Part::Bytes("map", map)];
    both.claim(covered == unheld, "the holes are exactly the positions that are not held", &input);
}

fn refused(both: &mut Both, random: &mut Random, length: u32, map: &[u8]) {
    let far = [length, length + 1, 65_536, 65_536 + random.below(20) as u32, 1 << 31, u32::MAX, random.word()];
    let place = random.pick(&far);
    both.list(length, map, place);
    both.is_held(length, map, place);
    let short = too_short(random, map_size(length));
    both.list(length, &short, random.below(length as usize) as u32);
    both.count_held(length, &short);
    let wrong = wrong_length(random);
    both.list(wrong, map, random.below(length as usize) as u32);
    both.is_held(wrong, map, place);
    both.count_held(wrong, map);
}
