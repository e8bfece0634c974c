//! Reading requests and their holes: right ones, each fault and each pair of faults, and damaged ones.
use super::shared::Kind;
use crate::both::Both;
use crate::faults;
use crate::made::request;
use crate::random::Random;

/// Requests, with their first hole.
pub const KIND: Kind<'static> = Kind { made: request::any, read: request_and_hole, faults: &faults::REQUEST };

fn request_and_hole(both: &mut Both, frame: &[u8]) -> Option<u8> {
    both.hole(frame, 0);
    both.read_request(frame).answer.err()
}

pub fn round(both: &mut Both, random: &mut Random) {
    KIND.every_fault(both, random);
    match random.below(16) {
        0 => KIND.every_cut(both, random),
        1 => KIND.every_flag(both, random),
        2 => every_size(both, random),
        3..=5 => KIND.every_pair(both, random),
        6 => every_index(both, random),
        _ => many(both, random),
    }
}

// 49 holes and up to 20 bytes more: 252 to 272 bytes of information.
fn every_size(both: &mut Both, random: &mut Random) {
    let holes = request::holes(random, request::MOST);
    let mut frame = request::with(random, &holes).bytes();
    for _ in 0..20 {
        both.read_request(&frame);
        both.hole(&frame, 48);
        frame.push(random.byte());
    }
}

// Every hole by its index, and beyond the count.
fn every_index(both: &mut Both, random: &mut Random) {
    let draft = request::any(random);
    let frame = draft.bytes();
    let count = (draft.information.len() - 7) as u32 / 5;
    let far = [256, 65_536, 1 << 31, u32::MAX, random.word()];
    for index in (0..count + 4).chain(far) {
        both.hole(&frame, index);
    }
}

fn many(both: &mut Both, random: &mut Random) {
    for _ in 0..50 {
        let frame = one(random);
        if random.chance(10) {
            both.read_as_all(&frame);
        } else {
            both.read_request(&frame);
        }
        both.hole(&frame, random.below(51) as u32);
    }
}

/// A request that is right, has a fault, or is damaged.
pub fn one(random: &mut Random) -> Vec<u8> {
    let draft = request::any(random);
    KIND.disturbed(random, draft)
}
