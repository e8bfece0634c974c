//! Makes directory entries, with file headers that keep or break their rules.
use super::header::{self, Broken};
use super::{file_number, Draft, DIRECTORY};
use crate::random::Random;

/// A directory entry that breaks these rules of its header, and no other.
pub fn with(random: &mut Random, broken: &[Broken]) -> Draft {
    let number = file_number(random);
    let flags = random.pick(&[0x20, 0x60]);
    let mut information = vec![flags];
    information.extend(number.to_le_bytes());
    information.extend([0; 4]);
    information.extend(random.bytes(8));
    information.extend(header::with(random, number, broken));
    Draft::new(random, DIRECTORY, information, Some(0))
}

/// A whole entry.
pub fn any(random: &mut Random) -> Draft {
    with(random, &[])
}
