//! Reading directory entries and their headers: every rule kept and broken, faults, and damaged ones.
use super::shared::Kind;
use crate::both::{Both, Part};
use crate::made::entry;
use crate::made::header::{self, Broken, BROKEN};
use crate::random::Random;
use crate::{damage, faults};

/// Directory entries.
pub const KIND: Kind<'static> =
    Kind { made: entry::any, read: |both, frame| both.entry(frame).answer.err(), faults: &faults::ENTRY };

pub fn round(both: &mut Both, random: &mut Random) {
    KIND.every_fault(both, random);
    match random.below(16) {
        0 => KIND.every_cut(both, random),
        1 => KIND.every_flag(both, random),
        2 => every_size(both, random),
        3 | 4 => KIND.every_pair(both, random),
        5 | 6 => every_rule(both, random),
        7 => every_header_byte(both, random),
        _ => many(both, random),
    }
}

// An extra item that fills the information up to 255 bytes, and a little beyond.
fn every_size(both: &mut Both, random: &mut Random) {
    for size in (19..30).chain(245..=262) {
        let mut draft = entry::any(random);
        let mut bytes = draft.information.clone();
        bytes.extend(random.bytes(size));
        draft.information = bytes[..size - 2].to_vec();
        both.entry(&draft.bytes());
    }
    for _ in 0..20 {
        let mut draft = entry::any(random);
        let number = [1, 2, 3, 4].map(|place| draft.information[place]);
        draft.information.truncate(17);
        let length = random.within(250, 259) - 19;
        draft.information.extend(header::of_length(random, u32::from_le_bytes(number), length));
        both.entry(&draft.bytes());
    }
}

// Each rule of the header broken alone, and with another one.
fn every_rule(both: &mut Both, random: &mut Random) {
    for rule in BROKEN {
        for _ in 0..4 {
            let frame = entry::with(random, &[rule]).bytes();
            let refused = both.entry(&frame).answer == Err(8);
            let input = [Part::Bytes("frame", &frame)];
            both.claim(refused, &format!("a header with the rule {rule:?} broken is 8"), &input);
        }
        let second = random.pick(&BROKEN);
        both.entry(&entry::with(random, &[rule, second]).bytes());
    }
}

// Every byte of the header changed, with the sum and the check made right again.
fn every_header_byte(both: &mut Both, random: &mut Random) {
    let frame = entry::any(random).bytes();
    for place in 16..frame.len() {
        let mut changed = frame.clone();
        changed[place] = if random.chance(50) { changed[place].wrapping_add(1) } else { random.byte() };
        damage::repair_sum(&mut changed);
        damage::repair_check(&mut changed);
        both.entry(&changed);
    }
}

fn many(both: &mut Both, random: &mut Random) {
    for _ in 0..60 {
        let frame = one(random);
        if random.chance(10) {
            both.read_as_all(&frame);
        } else {
            both.entry(&frame);
        }
    }
}

/// An entry that is right, has a fault, breaks rules of its header, or is damaged.
pub fn one(random: &mut Random) -> Vec<u8> {
    let rules: [Broken; 2] = [random.pick(&BROKEN), random.pick(&BROKEN)];
    match random.below(10) {
        0..=2 => entry::any(random).bytes(),
        3 => entry::with(random, &rules[..1]).bytes(),
        4 => entry::with(random, &rules).bytes(),
        5 | 6 => {
            let count = random.below(3);
            let mut draft = entry::with(random, &rules[..count]);
            faults::single(random, &mut draft, &faults::ENTRY);
            draft.bytes()
        }
        _ => {
            let mut frame = entry::any(random).bytes();
            damage::frame(random, &mut frame);
            frame
        }
    }
}
