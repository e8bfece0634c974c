//! Opening receptions in lent space of every size.
use crate::both::Both;
use crate::lent::{length, map_size, wrong_length, Lent};
use crate::random::Random;

pub fn round(both: &mut Both, random: &mut Random) {
    let number = random.word();
    let right = length(random);
    both.open(&mut Lent::rubbish(random, number, right));
    let mut short = Lent::rubbish(random, number, right).shortened(random);
    both.open(&mut short);
    around(both, random);
    let wrong = wrong_length(random);
    let space = random.below(40);
    let (map, buffer) = (random.bytes(space), random.bytes(space));
    both.open(&mut Lent { number, length: wrong, map, buffer });
}

// A short file in space of all sizes around the needed ones.
fn around(both: &mut Both, random: &mut Random) {
    let length = random.within(1, 40) as u32;
    let (map, buffer) = (map_size(length), length as usize);
    let (map, buffer) = (random.within(map.saturating_sub(2), map + 2), random.within(buffer - 1, buffer + 1));
    let mut lent = Lent { number: 0, length, map: random.bytes(map), buffer: random.bytes(buffer) };
    both.open(&mut lent);
}
