//! The remainder of messages of each length up to some steps of eight bytes, of single bits at places that are drawn, and of
//! messages with zero bytes in front.
use crate::both::Both;
use crate::random::Random;

/// Messages of each length below this.
const SIZES: usize = 34;

/// The longest information, and some bytes more.
const LONGEST: usize = 272;

pub fn round(both: &mut Both, random: &mut Random) {
    for size in 0..SIZES {
        let bytes = random.bytes(size);
        both.remainder(&bytes);
    }
    for _ in 0..4 {
        single_bit(both, random);
        zeros_in_front(both, random);
    }
}

fn single_bit(both: &mut Both, random: &mut Random) {
    let size = random.within(1, LONGEST);
    let mut bytes = vec![0; size];
    bytes[random.below(size)] = 1 << random.below(8);
    both.remainder(&bytes);
}

fn zeros_in_front(both: &mut Both, random: &mut Random) {
    let size = random.below(SIZES);
    let bytes = [vec![0; random.below(18)], random.bytes(size)].concat();
    both.remainder(&bytes);
}
