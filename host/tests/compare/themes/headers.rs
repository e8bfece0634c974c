//! Reading the header that a file starts with: a body behind it, every rule broken, every cut, every byte changed,
//! other files' numbers, and headers that are long.
use crate::both::{Both, Part};
use crate::damage;
use crate::made::file_number;
use crate::made::header::{self, Broken, BROKEN};
use crate::random::Random;

pub fn round(both: &mut Both, random: &mut Random) {
    match random.below(16) {
        0 => every_cut(both, random),
        1 => every_byte(both, random),
        2 | 3 => every_rule(both, random),
        4 => every_bit_of_the_number(both, random),
        5 => long(both, random),
        _ => many(both, random),
    }
}

// The start of a file cut at every length: it is read exactly if the header is whole.
fn every_cut(both: &mut Both, random: &mut Random) {
    let number = file_number(random);
    let mut bytes = header::with(random, number, &[]);
    let whole = bytes.len();
    bytes.extend(body(random));
    for size in 0..=bytes.len() {
        let read = both.header(&bytes[..size], number).answer.is_ok();
        let input = [Part::Bytes("bytes", &bytes[..size])];
        both.claim(read == (size >= whole), "a header is read exactly if it is whole", &input);
    }
}

// Every byte of the header changed, with the sum made right again.
fn every_byte(both: &mut Both, random: &mut Random) {
    let number = file_number(random);
    let bytes = header::with(random, number, &[]);
    for place in 0..bytes.len() {
        let mut changed = bytes.clone();
        changed[place] = if random.chance(50) { changed[place].wrapping_add(1) } else { random.byte() };
        damage::repair_header(&mut changed);
        changed.extend(body(random));
        both.header(&changed, number);
    }
}

// Each rule broken alone, and with another one. That bytes follow is a rule of the directory entry and none here.
fn every_rule(both: &mut Both, random: &mut Random) {
    for rule in BROKEN {
        let number = file_number(random);
        for _ in 0..4 {
            let bytes = header::with(random, number, &[rule]);
            let refused = both.header(&bytes, number).answer == Err(8);
            let law = format!("a header with the rule {rule:?} broken is 8, but for bytes behind it");
            both.claim(refused == (rule != Broken::BytesAfterTheEnd), &law, &[Part::Bytes("bytes", &bytes)]);
        }
        let second = random.pick(&BROKEN);
        let mut bytes = header::with(random, number, &[rule, second]);
        bytes.extend(body(random));
        both.header(&bytes, number);
    }
}

// A right header, for its own number and for each that differs in one bit.
fn every_bit_of_the_number(both: &mut Both, random: &mut Random) {
    let number = file_number(random);
    let mut bytes = header::with(random, number, &[]);
    bytes.extend(body(random));
    both.header(&bytes, number);
    for bit in 0..32 {
        let refused = both.header(&bytes, number ^ (1 << bit)).answer == Err(8);
        both.claim(refused, "another file's header is 8", &[Part::Bytes("bytes", &bytes)]);
    }
}

// Headers too long for a frame, whose sums go beyond 65,535, up to the longest that item 0B lets be.
fn long(both: &mut Both, random: &mut Random) {
    for _ in 0..20 {
        let length = if random.chance(10) { random.within(65_533, 65_538) } else { random.within(257, 3_000) };
        let number = file_number(random);
        let mut bytes = header::of_length(random, number, length);
        bytes.extend(body(random));
        let told = both.header(&bytes, number).answer.map(|(_, length)| length);
        let right = if length <= 65_535 { Ok(length) } else { Err(8) };
        both.claim(told == right, "a header of 65,535 bytes is read, and no longer one", &[]);
    }
}

fn many(both: &mut Both, random: &mut Random) {
    for _ in 0..60 {
        let (bytes, number) = one(random);
        both.header(&bytes, number);
    }
}

/// The start of a file, right, with a rule or two broken, or damaged; and a number, most often its own.
pub fn one(random: &mut Random) -> (Vec<u8>, u32) {
    let number = file_number(random);
    let rules: [Broken; 2] = [random.pick(&BROKEN), random.pick(&BROKEN)];
    let count = random.pick(&[0, 0, 0, 1, 2]);
    let mut bytes = header::with(random, number, &rules[..count]);
    if random.chance(30) {
        for _ in 0..random.within(1, 2) {
            damage::one(random, &mut bytes);
        }
        if random.chance(50) {
            damage::repair_header(&mut bytes);
        }
    }
    bytes.extend(body(random));
    (bytes, if random.chance(5) { file_number(random) } else { number })
}

// What stands behind a header: nothing, zeros, another header or anything else.
fn body(random: &mut Random) -> Vec<u8> {
    match random.below(5) {
        0 => Vec::new(),
        1 => vec![0; random.within(1, 4)],
        2 => {
            let number = file_number(random);
            header::with(random, number, &[])
        }
        _ => random.some_bytes(1, 200),
    }
}
