//! Reading file pieces: right ones, each fault and each pair of faults, and damaged ones.
use super::shared::Kind;
use crate::both::Both;
use crate::faults;
use crate::made::piece;
use crate::random::Random;

/// File pieces.
pub const KIND: Kind<'static> =
    Kind { made: piece::any, read: |both, frame| both.piece(frame).answer.err(), faults: &faults::PIECE };

pub fn round(both: &mut Both, random: &mut Random) {
    KIND.every_fault(both, random);
    match random.below(16) {
        0 => KIND.every_cut(both, random),
        1 => KIND.every_flag(both, random),
        2 => every_size(both, random),
        3..=5 => KIND.every_pair(both, random),
        _ => many(both, random),
    }
}

// Information around its shortest and its longest, with right check bytes.
fn every_size(both: &mut Both, random: &mut Random) {
    for size in (2..20).chain(245..=270) {
        let mut draft = piece::any(random);
        let mut bytes = draft.information.clone();
        bytes.extend(random.bytes(size));
        draft.information = bytes[..size - 2].to_vec();
        both.piece(&draft.bytes());
        draft.check = Some(1);
        both.piece(&draft.bytes());
    }
}

fn many(both: &mut Both, random: &mut Random) {
    for _ in 0..60 {
        let frame = one(random);
        if random.chance(10) {
            both.read_as_all(&frame);
        } else {
            both.piece(&frame);
        }
        both.remainder(frame.get(16..).unwrap_or(&[]));
    }
}

/// A frame that is right, has a fault, or is damaged.
pub fn one(random: &mut Random) -> Vec<u8> {
    let draft = piece::any(random);
    KIND.disturbed(random, draft)
}
