//! Requests, written for holes and for the start of a file.
use super::{Both, Outcome, Part};
use crate::lent::map_size;
use crate::made::address_of;
use crate::model::{self, Answer};
use crate::tally::case;
use thoweldeck::boundary::{self, Wanted};

/// What the library and the model wrote, each in its own copy of the target, and what they answered.
pub struct Written {
    pub answer: Answer<(u32, u32)>,
    pub targets: [Vec<u8>; 2],
}

impl Both {
    pub fn write_fill(&mut self, wanted: Wanted<'_>, place: u32, target: &[u8]) -> Written {
        let before = (self.rubbish.word(), self.rubbish.word());
        let (map, mut library, mut model) = (wanted.map.to_vec(), target.to_vec(), target.to_vec());
        let mut told = before;
        let lent = Wanted { map: &map, ..wanted };
        let answer = boundary::write_fill(lent, place, &mut library, &mut told.0, &mut told.1);
        let (destination, source) = (address_of(wanted.destination), address_of(wanted.source));
        let expected =
            model::write_fill(destination, source, wanted.number, wanted.length, wanted.map, place, &mut model);
        let left = Outcome::library(answer, told, vec![map, library.clone()]);
        let right = Outcome::model(&expected, before, vec![wanted.map.to_vec(), model.clone()]);
        self.compare(("write_fill", write_case(&expected, wanted)), &shown(wanted, place, target), &left, &right);
        if expected.is_ok() {
            self.note_bits("write_fill", destination, source);
        }
        Written { answer: expected, targets: [library, model] }
    }

    pub fn write_start(&mut self, destination: u64, source: u64, number: u32, target: &[u8]) -> [Vec<u8>; 2] {
        let (mut library, mut model) = (target.to_vec(), target.to_vec());
        let answer = boundary::write_start(destination, source, number, &mut library);
        let expected = model::write_start(address_of(destination), address_of(source), number, &mut model);
        let case = match expected {
            Err(2) => case(2, usize::from(is_right(destination))),
            _ => case(expected.err().unwrap_or(0), 0),
        };
        let left = Outcome::library(answer, (), vec![library.clone()]);
        let right = Outcome::model(&expected, (), vec![model.clone()]);
        let input = [
            Part::Number("destination", destination),
            Part::Number("source", source),
            Part::Number("number", number.into()),
            Part::Bytes("target", target),
        ];
        self.compare(("write_start", case), &input, &left, &right);
        if expected.is_ok() {
            self.note_bits("write_start", address_of(destination), address_of(source));
        }
        [library, model]
    }
}

// Whether an address is well formed: whether a start request to and from it is written.
fn is_right(address: u64) -> bool {
    model::write_start(address_of(address), address_of(address), 0, &mut [0; 23]).is_ok()
}

// A 2 is the destination's or the source's; a 12 the map's or the target's.
fn write_case(answer: &Answer<(u32, u32)>, wanted: Wanted<'_>) -> &'static str {
    match answer {
        Ok(_) => case(0, 0),
        Err(2) => case(2, usize::from(is_right(wanted.destination))),
        Err(12) => case(12, usize::from(wanted.map.len() >= map_size(wanted.length))),
        Err(reason) => case(*reason, 0),
    }
}

fn shown<'a>(wanted: Wanted<'a>, place: u32, target: &'a [u8]) -> [Part<'a>; 7] {
    [
        Part::Number("destination", wanted.destination),
        Part::Number("source", wanted.source),
        Part::Number("number", wanted.number.into()),
        Part::Number("length", wanted.length.into()),
        Part::Bytes("map", wanted.map),
        Part::Number("place", place.into()),
        Part::Bytes("target", target),
    ]
}
