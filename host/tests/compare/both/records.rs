//! Records: saving and loading.
use super::{Both, Compared, Outcome, Part};
use crate::lent::{map_size, Lent};
use crate::model::{self, Answer};
use crate::tally::case;
use thoweldeck::boundary;

impl Both {
    pub fn save(&mut self, reception: &Lent, target: &mut Vec<u8>) -> Compared<usize> {
        let before = self.rubbish.draw() as usize;
        let (lent, mut library, mut model) = (reception.clone(), target.clone(), target.clone());
        let mut size = before;
        let answer = boundary::save(lent.number, lent.length, &lent.map, &lent.buffer, &mut library, &mut size);
        let Lent { number, length, map, buffer } = reception;
        let expected = model::save(*number, *length, map, buffer, &mut model);
        let left = Outcome::library(answer, size, vec![lent.map, lent.buffer, library]);
        let right = Outcome::model(&expected, before, vec![map.clone(), buffer.clone(), model.clone()]);
        let [a, b, c, d] = reception.shown();
        let input = [a, b, c, d, Part::Bytes("target", target)];
        self.compare(("save", save_case(&expected, reception)), &input, &left, &right);
        *target = model;
        Compared { answer: expected }
    }

    /// Loads into the space of a reception, which then has the record's number and length.
    pub fn load(&mut self, saved: &[u8], into: &mut Lent) -> Compared<(u32, u32)> {
        let before = (self.rubbish.word(), self.rubbish.word());
        let (mut library, mut model) = (into.clone(), into.clone());
        let (lent, mut told) = (saved.to_vec(), before);
        let answer = boundary::load(&lent, &mut library.map, &mut library.buffer, &mut told.0, &mut told.1);
        let expected = model::load(saved, &mut model.map, &mut model.buffer);
        let left = Outcome::library(answer, told, vec![lent, library.map, library.buffer]);
        let right = Outcome::model(&expected, before, vec![saved.to_vec(), model.map.clone(), model.buffer.clone()]);
        let input = [Part::Bytes("record", saved), Part::Bytes("map", &into.map), Part::Bytes("buffer", &into.buffer)];
        self.compare(("load", load_case(&expected, saved, &into.map)), &input, &left, &right);
        if let Ok((number, length)) = expected {
            *into = Lent { number, length, ..model };
        }
        Compared { answer: expected }
    }
}

// A save's 12 is the map's, the buffer's or the target's.
fn save_case(answer: &Answer<usize>, reception: &Lent) -> &'static str {
    match answer {
        Ok(_) => case(0, 0),
        Err(12) if reception.fits() => case(12, 2),
        Err(12) => case(12, usize::from(reception.map.len() >= map_size(reception.length))),
        Err(reason) => case(*reason, 0),
    }
}

// A load's 12 is the map's or the buffer's; the record's map starts behind three heads and two numbers.
fn load_case(answer: &Answer<(u32, u32)>, saved: &[u8], map: &[u8]) -> &'static str {
    match answer {
        Ok(_) => case(0, 0),
        Err(12) => {
            let needed = saved.get(15..17).map_or(0, |size| usize::from(size[0]) + 256 * usize::from(size[1]));
            case(12, usize::from(map.len() >= needed))
        }
        Err(reason) => case(*reason, 0),
    }
}
