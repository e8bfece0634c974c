//! What the themes of the three kinds of frames share: each fault, each pair of faults, every cut and every flag.
use crate::both::{Both, Part};
use crate::damage;
use crate::faults::{plant, Fault};
use crate::made::Draft;
use crate::random::Random;

/// A kind of frames: how a right one is made, how it is read by both, and its faults.
pub struct Kind<'a> {
    pub made: fn(&mut Random) -> Draft,
    /// Compares the readings of a frame, and answers the reason of a refusal.
    pub read: fn(&mut Both, &[u8]) -> Option<u8>,
    pub faults: &'a [Fault],
}

impl Kind<'_> {
    /// Each fault alone is refused with its own reason.
    pub fn every_fault(&self, both: &mut Both, random: &mut Random) {
        for &fault in self.faults {
            let frame = self.with(random, &[fault]);
            let refused = (self.read)(both, &frame);
            let right = fault.reason().is_none() || refused == fault.reason();
            let law = format!("a frame with the fault {fault:?} has its reason");
            both.claim(right, &law, &[Part::Bytes("frame", &frame)]);
        }
    }

    /// Two faults at once, planted in both orders: the order of the reasons decides, not that of the faults.
    pub fn every_pair(&self, both: &mut Both, random: &mut Random) {
        for &first in self.faults {
            for &second in self.faults {
                let frame = self.with(random, &[first, second]);
                (self.read)(both, &frame);
            }
        }
    }

    /// A frame cut at every length, as it is and with its check made right again.
    pub fn every_cut(&self, both: &mut Both, random: &mut Random) {
        let frame = (self.made)(random).bytes();
        for size in 0..=frame.len() {
            let mut cut = frame[..size].to_vec();
            (self.read)(both, &cut);
            damage::repair_check(&mut cut);
            (self.read)(both, &cut);
        }
    }

    /// A frame with each of the 256 flag bytes.
    pub fn every_flag(&self, both: &mut Both, random: &mut Random) {
        let mut draft = (self.made)(random);
        for flags in 0..=255 {
            draft.information[0] = flags;
            (self.read)(both, &draft.bytes());
        }
    }

    /// A frame as it is, with a fault of its kind, or damaged.
    pub fn disturbed(&self, random: &mut Random, mut draft: Draft) -> Vec<u8> {
        let choice = random.below(10);
        if (3..6).contains(&choice) {
            let fault = random.pick(self.faults);
            plant(random, &mut draft, fault);
        }
        let mut frame = draft.bytes();
        if choice >= 6 {
            damage::frame(random, &mut frame);
        }
        frame
    }

    // A frame with faults planted one after the other.
    fn with(&self, random: &mut Random, faults: &[Fault]) -> Vec<u8> {
        let mut draft = (self.made)(random);
        for &fault in faults {
            plant(random, &mut draft, fault);
        }
        draft.bytes()
    }
}
