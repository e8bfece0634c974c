//! Bit 7 of both SSID bytes: whichever are set, a frame of any kind, right or not, has the same answer but for the bits
//! themselves, and so has what is written.
use super::{entries, holes, pieces, requests_read, takes};
use crate::both::{Both, Part};
use crate::lent::{enough, length};
use crate::made::{address, file_number, number_of, File};
use crate::model::{Address, Answer, Entry, Piece, Request};
use crate::random::Random;
use thoweldeck::boundary::Wanted;

/// Bit 7 of the destination and of the source.
type Bits = [u8; 2];

const CLEAR: Bits = [0, 0];
const ALL: [Bits; 4] = [CLEAR, [1, 0], [0, 1], [1, 1]];

pub fn round(both: &mut Both, random: &mut Random) {
    read(both, &pieces::one(random), |both, frame| both.piece(frame).answer);
    read(both, &entries::one(random), |both, frame| both.entry(frame).answer);
    read(both, &requests_read::one(random), |both, frame| {
        both.hole(frame, 0);
        both.read_request(frame).answer
    });
    taken(both, random);
    written(both, random);
    started(both, random);
}

/// What is told of a frame.
trait Told: Clone + PartialEq {
    /// Destination and source.
    fn addresses(&mut self) -> [&mut Address; 2];
}

impl Told for Piece {
    fn addresses(&mut self) -> [&mut Address; 2] {
        [&mut self.destination, &mut self.source]
    }
}

impl Told for Entry {
    fn addresses(&mut self) -> [&mut Address; 2] {
        [&mut self.destination, &mut self.source]
    }
}

impl Told for Request {
    fn addresses(&mut self) -> [&mut Address; 2] {
        [&mut self.destination, &mut self.source]
    }
}

// A frame with its bits set so, as far as it goes.
fn with_bits(frame: &[u8], bits: Bits) -> Vec<u8> {
    let mut frame = frame.to_vec();
    for (place, bit) in [6, 13].into_iter().zip(bits) {
        if let Some(byte) = frame.get_mut(place) {
            *byte = *byte & 0x7F | bit << 7;
        }
    }
    frame
}

fn read<T: Told>(both: &mut Both, frame: &[u8], reader: fn(&mut Both, &[u8]) -> Answer<T>) {
    let plain = reader(both, &with_bits(frame, CLEAR));
    for bits in ALL {
        let (mut expected, frame) = (plain.clone(), with_bits(frame, bits));
        if let Ok(told) = &mut expected {
            told.addresses().into_iter().zip(bits).for_each(|(address, bit)| address.bit7 = bit);
        }
        let same = reader(both, &frame) == expected;
        both.claim(same, "bit 7 is told, and changes nothing else", &[Part::Bytes("frame", &frame)]);
    }
}

fn taken(both: &mut Both, random: &mut Random) {
    let length = length(random).min(600);
    let file = File::random(random, length);
    let (reception, frame) = (takes::start(random, &file), takes::one(random, &file));
    let mut plain = reception.clone();
    let expected = both.take(&mut plain, &with_bits(&frame, CLEAR)).answer;
    for bits in ALL {
        let (mut other, frame) = (reception.clone(), with_bits(&frame, bits));
        let answer = both.take(&mut other, &frame).answer;
        let same = answer == expected && other == plain;
        both.claim(same, "bit 7 changes nothing in what is taken", &[Part::Bytes("frame", &frame)]);
    }
}

const WRITTEN: &str = "bit 7 is written, and changes nothing else";

// Two addresses with bits, as the numbers that the library takes.
fn numbers([destination, source]: [Address; 2], bits: Bits) -> (u64, u64) {
    let number = |address: Address, bit7: u8| number_of(Address { bit7, ..address });
    (number(destination, bits[0]), number(source, bits[1]))
}

fn written(both: &mut Both, random: &mut Random) {
    let length = length(random).min(600);
    let map = holes::map(random, length);
    let (addresses, number) = ([address(random), address(random)], file_number(random));
    let (place, target) = (random.below(length as usize) as u32, enough(random, 268));
    let mut write = |bits: Bits| {
        let (destination, source) = numbers(addresses, bits);
        both.write_fill(Wanted { destination, source, number, length, map: &map }, place, &target)
    };
    let [plain, others @ ..] = ALL.map(&mut write);
    for (written, bits) in others.iter().zip(&ALL[1..]) {
        let [library, _] = &written.targets;
        // a refusal leaves the target
        let expected = if plain.answer.is_ok() { with_bits(&plain.targets[0], *bits) } else { target.clone() };
        let same = written.answer == plain.answer && *library == expected;
        both.claim(same, WRITTEN, &[Part::Bytes("map", &map), Part::Bytes("written", library)]);
    }
}

fn started(both: &mut Both, random: &mut Random) {
    let (addresses, number) = ([address(random), address(random)], file_number(random));
    let target = enough(random, 23);
    let [plain, others @ ..] = ALL.map(|bits| {
        let (destination, source) = numbers(addresses, bits);
        let [library, _] = both.write_start(destination, source, number, &target);
        library
    });
    for (written, bits) in others.iter().zip(&ALL[1..]) {
        both.claim(*written == with_bits(&plain, *bits), WRITTEN, &[Part::Bytes("written", written)]);
    }
}
