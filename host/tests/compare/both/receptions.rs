//! Receptions: opening, taking, joining, listing, and which positions are held.
use super::frames::frame_case;
use super::{Both, Compared, Outcome, Part};
use crate::lent::{map_size, Lent};
use crate::model::{self, Answer};
use crate::tally::{case, ACCEPTED};
use thoweldeck::boundary::{self, Second};

// 12 of the map, or of the buffer.
fn space_case(length: u32, map: &[u8]) -> &'static str {
    case(12, usize::from(map.len() >= map_size(length)))
}

impl Both {
    pub fn open(&mut self, reception: &mut Lent) -> Compared<()> {
        let (mut library, mut model) = (reception.clone(), reception.clone());
        let answer = boundary::open(library.length, &mut library.map, &mut library.buffer);
        let expected = model::open(model.length, &mut model.map, &mut model.buffer);
        let case = match expected {
            Ok(()) => case(0, 0),
            Err(12) => space_case(reception.length, &reception.map),
            Err(reason) => case(reason, 0),
        };
        let left = Outcome::library(answer, (), vec![library.map, library.buffer]);
        let right = Outcome::model(&expected, (), vec![model.map.clone(), model.buffer.clone()]);
        self.compare(("open", case), &reception.shown(), &left, &right);
        *reception = model;
        Compared { answer: expected }
    }

    pub fn take(&mut self, reception: &mut Lent, frame: &[u8]) -> Compared<u32> {
        let before = self.rubbish.word();
        let (mut library, mut model) = (reception.clone(), reception.clone());
        let (lent, mut new) = (frame.to_vec(), before);
        let Lent { number, length, .. } = *reception;
        let answer = boundary::take(number, length, &mut library.map, &mut library.buffer, &lent, &mut new);
        let expected = model::take(number, length, &mut model.map, &mut model.buffer, frame);
        let case = take_case(&expected, reception, frame);
        let left = Outcome::library(answer, new, vec![library.map, library.buffer, lent]);
        let lent = vec![model.map.clone(), model.buffer.clone(), frame.to_vec()];
        let right = Outcome::model(&expected, before, lent);
        let [a, b, c, d] = reception.shown();
        self.compare(("take", case), &[a, b, c, d, Part::Bytes("frame", frame)], &left, &right);
        if expected.is_ok() {
            self.note_bits_of("take", frame);
        }
        *reception = model;
        Compared { answer: expected }
    }

    pub fn join(&mut self, first: &mut Lent, second: &Lent) -> Compared<u32> {
        let before = self.rubbish.word();
        let (mut library, mut model, other) = (first.clone(), first.clone(), second.clone());
        let mut new = before;
        let lent = Second { number: other.number, length: other.length, map: &other.map, buffer: &other.buffer };
        let answer = boundary::join(first.number, first.length, &mut library.map, &mut library.buffer, lent, &mut new);
        let expected = model::join(
            first.number,
            first.length,
            &mut model.map,
            &mut model.buffer,
            second.number,
            second.length,
            &second.map,
            &second.buffer,
        );
        let left = Outcome::library(answer, new, vec![library.map, library.buffer, other.map, other.buffer]);
        let lent = vec![model.map.clone(), model.buffer.clone(), second.map.clone(), second.buffer.clone()];
        let right = Outcome::model(&expected, before, lent);
        let ([a, b, c, d], [e, f, g, h]) = (first.shown(), second.shown());
        self.compare(("join", join_case(&expected, first, second)), &[a, b, c, d, e, f, g, h], &left, &right);
        *first = model;
        Compared { answer: expected }
    }

    pub fn list(&mut self, length: u32, map: &[u8], place: u32) -> Compared<(u32, u32)> {
        let before = (self.rubbish.word(), self.rubbish.word());
        let (lent, mut told) = (map.to_vec(), before);
        let answer = boundary::list(length, &lent, place, &mut told.0, &mut told.1);
        let expected = model::list(length, map, place);
        let left = Outcome::library(answer, told, vec![lent]);
        let right = Outcome::model(&expected, before, vec![map.to_vec()]);
        let input =
            [Part::Number("length", length.into()), Part::Bytes("map", map), Part::Number("place", place.into())];
        self.compare(("list", case(right.reason, 0)), &input, &left, &right);
        Compared { answer: expected }
    }

    pub fn is_held(&mut self, length: u32, map: &[u8], position: u32) -> bool {
        let lent = map.to_vec();
        let library = boundary::is_held(length, &lent, position);
        let model = model::is_held(length, map, position);
        let position = Part::Number("position", position.into());
        let input = [Part::Number("length", length.into()), Part::Bytes("map", map), position];
        let case = if model { "held" } else { "unheld" };
        self.equal(("is_held", case), &input, (library, &lent[..]), (model, map));
        model
    }

    pub fn count_held(&mut self, length: u32, map: &[u8]) -> u32 {
        let lent = map.to_vec();
        let library = boundary::count_held(length, &lent);
        let model = model::count_held(length, map);
        let input = [Part::Number("length", length.into()), Part::Bytes("map", map)];
        let case = if model == 0 { "none" } else { "some" };
        self.equal(("count_held", case), &input, (library, &lent[..]), (model, map));
        model
    }

    pub fn remainder(&mut self, bytes: &[u8]) -> u16 {
        let lent = bytes.to_vec();
        let library = boundary::remainder(&lent);
        let model = model::remainder(bytes);
        let input = [Part::Bytes("bytes", bytes)];
        self.equal(("remainder", ACCEPTED), &input, (library, &lent[..]), (model, bytes));
        model
    }
}

// A take's 7 is the frame's first, the frame's second, or L's.
fn take_case(answer: &Answer<u32>, reception: &Lent, frame: &[u8]) -> &'static str {
    match answer {
        Err(7) if model::piece(frame).is_ok() => case(7, 2),
        Err(12) => space_case(reception.length, &reception.map),
        _ => frame_case(answer, frame),
    }
}

// A join's 7 and 12 are the first's or the second's; its 9 is the number's or the length's.
fn join_case(answer: &Answer<u32>, first: &Lent, second: &Lent) -> &'static str {
    match answer {
        Ok(_) => case(0, 0),
        Err(7) => case(7, usize::from(first.length_is_right())),
        Err(12) => case(12, usize::from(first.fits())),
        Err(9) => case(9, usize::from(first.number == second.number)),
        Err(reason) => case(*reason, 0),
    }
}
