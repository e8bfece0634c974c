//! The functions that never refuse, on anything: the remainder, whether a position is held, and how many are.
use crate::both::Both;
use crate::random::Random;

pub fn round(both: &mut Both, random: &mut Random) {
    let size = match random.below(3) {
        0 => random.below(4),
        1 => random.below(60),
        _ => random.below(600),
    };
    let bytes = random.bytes(size);
    let check = both.remainder(&bytes).to_be_bytes();
    // what ends in its own remainder has none
    let whole = [&bytes[..], &check[..]].concat();
    let none = both.remainder(&whole);
    both.claim(none == 0, "bytes that end in their remainder have the remainder 0", &[]);
    one_byte(both, random);
    for _ in 0..8 {
        let length = any_length(random, bytes.len());
        both.count_held(length, &bytes);
        let position = any_length(random, bytes.len());
        both.is_held(length, &bytes, position);
    }
}

fn one_byte(both: &mut Both, random: &mut Random) {
    for _ in 0..8 {
        let size = random.within(1, 3);
        let mut bytes = vec![0; size];
        bytes[random.below(size)] = random.byte();
        both.remainder(&bytes);
    }
}

// Below, at and beyond what a map of this size has, and beyond all sizes.
fn any_length(random: &mut Random, size: usize) -> u32 {
    let positions = 8 * size as u32;
    match random.below(4) {
        0 => random.pick(&[0, 1, 7, 8, 9, 32_767, 32_768, 32_769, 65_556, u32::MAX]),
        1 => random.below(8 * size + 1) as u32,
        2 => (positions + random.below(18) as u32).saturating_sub(9),
        _ => random.word(),
    }
}
