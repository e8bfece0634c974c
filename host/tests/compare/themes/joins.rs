//! Joining receptions: of one file in any order and grouping, fresh, repeated, disagreeing and ill-fitting ones.
use crate::both::Both;
use crate::lent::{length, wrong_length, Lent};
use crate::made::File;
use crate::random::Random;

pub fn round(both: &mut Both, random: &mut Random) {
    let length = length(random);
    let file = File::random(random, length);
    let percents = [random.below(101), random.below(101), random.below(101)];
    let stations = percents.map(|percent| Lent::holding(random, &file, percent));
    let [a, b, c] = &stations;
    for (first, second, third) in [(a, b, c), (b, c, a), (c, a, b), (b, a, c)] {
        let mut left = first.clone();
        both.join(&mut left, second);
        both.join(&mut left, third);
        let mut right = second.clone();
        both.join(&mut right, third);
        both.join(&mut first.clone(), &right);
        both.join(&mut left, second);
    }
    let fresh = Lent::fresh(random, file.number, length);
    both.join(&mut fresh.clone(), a);
    both.join(&mut a.clone(), &fresh);
    both.join(&mut a.clone(), a);
    for _ in 0..6 {
        ill_fitting(both, random, a, b);
        disagreeing(both, random, a, b);
    }
}

// One or two faults in the numbers and the space of the two.
fn ill_fitting(both: &mut Both, random: &mut Random, first: &Lent, second: &Lent) {
    let mut two = [first.clone(), second.clone()];
    for _ in 0..random.within(1, 2) {
        let which = random.below(2);
        let lent = &mut two[which];
        match random.below(6) {
            0 => lent.length = wrong_length(random),
            1 => lent.number ^= 1 << random.below(32),
            2 => lent.length = (lent.length % 8).max(1),
            3 if lent.length > 1 => lent.length -= 1,
            4 => lent.length = lent.length.wrapping_add(1),
            _ if lent.length_is_right() => *lent = lent.shortened(random),
            _ => (),
        }
    }
    let [mut first, second] = two;
    both.join(&mut first, &second);
}

// One byte differs, at a position that both hold, one holds, or none does.
fn disagreeing(both: &mut Both, random: &mut Random, first: &Lent, second: &Lent) {
    let mut second = second.clone();
    let common: Vec<u32> = (0..first.length).filter(|&p| first.is_held(p) && second.is_held(p)).collect();
    let place = match random.below(4) {
        0 => random.below(first.length as usize) as u32,
        1 => common.last().copied().unwrap_or(0),
        _ if common.is_empty() => 0,
        _ => random.pick(&common),
    };
    second.buffer[place as usize] ^= random.change();
    both.join(&mut first.clone(), &second);
}
