//! Taking frames into a reception: a file's pieces with loss, repeats, any order and overlaps, and foreign,
//! damaged, disagreeing and ill-fitting frames among them.
use super::{entries, pieces, requests_read};
use crate::both::Both;
use crate::lent::{length, wrong_length, Lent};
use crate::made::{piece, File};
use crate::random::Random;

pub fn round(both: &mut Both, random: &mut Random) {
    let length = length(random);
    let file = File::random(random, length);
    let mut reception = start(random, &file);
    let mut heard: Vec<Vec<u8>> = Vec::new();
    for _ in 0..if length > 2_000 { 30 } else { 80 } {
        let frame = if !heard.is_empty() && random.chance(10) {
            heard[random.below(heard.len())].clone()
        } else {
            one(random, &file)
        };
        match random.below(12) {
            0 => {
                both.take(&mut reception.shortened(random), &frame);
            }
            1 => {
                both.take(&mut Lent { length: wrong_length(random), ..reception.clone() }, &frame);
            }
            2 => {
                both.take(&mut Lent { length: shifted(random, length), ..reception.clone() }, &frame);
            }
            _ => {
                both.take(&mut reception, &frame);
            }
        }
        heard.push(frame);
    }
}

/// A fresh reception, one that holds a part, or one in which positions are held at random.
pub fn start(random: &mut Random, file: &File) -> Lent {
    match random.below(6) {
        0 => Lent::rubbish(random, file.number, file.length()),
        1 | 2 => {
            let percent = random.below(100);
            Lent::holding(random, file, percent)
        }
        _ => Lent::fresh(random, file.number, file.length()),
    }
}

// A length near the lent one, for which the space can be too short by little.
fn shifted(random: &mut Random, length: u32) -> u32 {
    (length + random.below(12) as u32).saturating_sub(4)
}

/// A frame that a station may hear while it receives a file.
pub fn one(random: &mut Random, file: &File) -> Vec<u8> {
    match random.below(20) {
        0..=8 => piece::of(random, file).bytes(),
        9 => other_number(random, file),
        10 | 11 => disagreeing(random, file),
        12 | 13 => at_the_end(random, file),
        14..=17 => {
            let draft = piece::of(random, file);
            pieces::KIND.disturbed(random, draft)
        }
        18 => pieces::one(random),
        _ if random.chance(50) => entries::one(random),
        _ => requests_read::one(random),
    }
}

fn other_number(random: &mut Random, file: &File) -> Vec<u8> {
    let mut draft = piece::of(random, file);
    draft.information[random.within(1, 4)] ^= 1 << random.below(8);
    draft.bytes()
}

// One byte of a piece is another: the first, the last or any.
fn disagreeing(random: &mut Random, file: &File) -> Vec<u8> {
    let mut draft = piece::of(random, file);
    let last = draft.information.len() - 1;
    let any = random.within(9, last);
    let place = random.pick(&[9, last, any]);
    draft.information[place] ^= random.change();
    draft.bytes()
}

// A piece that ends at L or a little before or beyond, or whose offset has a high byte.
fn at_the_end(random: &mut Random, file: &File) -> Vec<u8> {
    let length = file.length();
    let size = random.pick(&[1, 2, 9, 244]);
    let high = random.pick(&[0, 0, 0, 1, 2, 128, 255]) << 16;
    let end = length + random.below(4) as u32;
    let offset = match random.below(4) {
        0 => piece::offset(random),
        1 => length + random.below(3) as u32,
        _ => end.saturating_sub(size + 1),
    };
    let start = (offset as usize).min(file.bytes.len());
    let mut bytes = file.bytes[start..].to_vec();
    bytes.resize(size as usize, 0);
    piece::with(random, file.number, (offset + high) & 0x00FF_FFFF, &bytes).bytes()
}
