//! A reception that owns its space, through its life, beside the model.
use super::frames_read::made;
use super::takes;
use crate::both::{Both, Part};
use crate::lent::{length, map_size, wrong_length};
use crate::made::{address, piece, File};
use crate::random::Random;
use crate::tally::ACCEPTED;
use crate::{damage, model};
use thoweldeck::{Hole, Reception};

/// A reception, and the model's map and buffer beside it.
struct Beside {
    number: u32,
    length: u32,
    reception: Reception,
    map: Vec<u8>,
    buffer: Vec<u8>,
}

impl Beside {
    fn open(both: &mut Both, file: &File) -> Beside {
        let (number, length) = (file.number, file.length());
        let reception = Reception::open(number, length).expect("a right length");
        let made =
            Beside { number, length, reception, map: vec![0; map_size(length)], buffer: vec![0; length as usize] };
        both.alike("Reception::open", &made.input(), Ok(made.state()), Ok(made.expected()));
        made
    }

    fn input(&self) -> [Part<'_>; 3] {
        [Part::Number("number", self.number.into()), Part::Bytes("map", &self.map), Part::Bytes("buffer", &self.buffer)]
    }

    fn state(&self) -> (u32, u32, &[u8], &[u8]) {
        let reception = &self.reception;
        (reception.number(), reception.length(), reception.map(), reception.buffer())
    }

    fn expected(&self) -> (u32, u32, &[u8], &[u8]) {
        (self.number, self.length, &self.map, &self.buffer)
    }

    fn take(&mut self, both: &mut Both, frame: &[u8]) {
        let library = self.reception.take(frame);
        let model = model::take(self.number, self.length, &mut self.map, &mut self.buffer, frame);
        both.alike("Reception::take", &[Part::Bytes("frame", frame)], library, model);
        if model.is_ok() {
            both.note_bits_of("Reception::take", frame);
        }
        both.claim(self.state() == self.expected(), "map and buffer are the model's", &self.input());
    }

    fn join(&mut self, both: &mut Both, other: &Beside) {
        let library = self.reception.join(&other.reception);
        let (map, buffer) = (&mut self.map, &mut self.buffer);
        let (number, length) = (self.number, self.length);
        let model = model::join(number, length, map, buffer, other.number, other.length, &other.map, &other.buffer);
        both.alike("Reception::join", &other.input(), library, model);
        both.claim(self.state() == self.expected(), "map and buffer are the model's", &self.input());
    }

    // All that the model lists, which are L at most.
    fn holes(&self) -> Vec<(u32, u32)> {
        let mut place = 0;
        let next = |_| {
            let (start, size) = model::list(self.length, &self.map, place).ok()?;
            place = start + size;
            Some((start, size))
        };
        (0..self.length).map_while(next).collect()
    }

    fn requests(&self, destination: model::Address, source: model::Address) -> Vec<Vec<u8>> {
        let Beside { number, length, ref map, .. } = *self;
        let (mut place, mut target) = (0, [0; 268]);
        let next = |_| {
            let written = model::write_fill(destination, source, number, length, map, place, &mut target);
            let (count, end) = written.ok()?;
            place = end;
            Some(target[..23 + 5 * count as usize].to_vec())
        };
        (0..length).map_while(next).collect()
    }

    fn record(&self) -> Vec<u8> {
        let mut record = vec![0; 36_884];
        let size = model::save(self.number, self.length, &self.map, &self.buffer, &mut record).expect("enough space");
        record.truncate(size);
        record
    }
}

pub fn round(both: &mut Both, random: &mut Random) {
    let wrong = wrong_length(random);
    let refused = Reception::open(7, wrong).map(|_| ());
    both.alike("Reception::open", &[Part::Number("length", wrong.into())], refused, Err(7));
    let length = length(random).min(3_000);
    let file = File::random(random, length);
    let mut first = Beside::open(both, &file);
    let mut second = Beside::open(both, &file);
    for _ in 0..random.below(30) {
        let one = if random.chance(50) { &mut first } else { &mut second };
        one.take(both, &takes::one(random, &file));
    }
    joined(both, random, &file, &mut first, &mut second);
    if random.chance(40) {
        first = Beside::open(both, &file);
        take_all(both, random, &file, &mut first);
    }
    questions(both, random, &first);
    requested(both, random, &first);
    recorded(both, random, &first);
}

fn joined(both: &mut Both, random: &mut Random, file: &File, first: &mut Beside, second: &mut Beside) {
    let other = File { number: file.number, bytes: random.bytes(file.bytes.len() + 1) };
    let mut longer = Beside::open(both, &other);
    longer.join(both, first);
    first.join(both, &longer);
    first.join(both, second);
    second.join(both, first);
}

// The whole file, piece by piece.
fn take_all(both: &mut Both, random: &mut Random, file: &File, beside: &mut Beside) {
    for (index, bytes) in file.bytes.chunks(200).enumerate() {
        let frame = piece::with(random, file.number, 200 * index as u32, bytes).bytes();
        beside.take(both, &frame);
    }
}

fn questions(both: &mut Both, random: &mut Random, beside: &Beside) {
    let (reception, input) = (&beside.reception, beside.input());
    let holes = beside.holes();
    let library: Vec<(u32, u32)> = reception.holes().map(|Hole { start, length }| (start, length)).collect();
    both.equal(("Reception::holes", ACCEPTED), &input, &library, &holes);
    let held = model::count_held(beside.length, &beside.map);
    both.equal(("Reception::held", ACCEPTED), &input, reception.held(), held);
    let (case, whole) = if holes.is_empty() { ("whole", Some(&beside.buffer[..])) } else { ("not_whole", None) };
    both.equal(("Reception::file", case), &input, reception.file(), whole);
    let position = random.below(beside.length as usize + 2) as u32;
    let held = model::is_held(beside.length, &beside.map, position);
    let case = if held { "held" } else { "unheld" };
    both.equal(("Reception::is_held", case), &input, reception.is_held(position), held);
}

fn requested(both: &mut Both, random: &mut Random, beside: &Beside) {
    let (destination, source) = (address(random), address(random));
    let frames: Vec<Vec<u8>> = beside.reception.requests(made(destination), made(source)).collect();
    let expected = beside.requests(destination, source);
    if !expected.is_empty() {
        both.note_bits("Reception::requests", destination, source);
    }
    both.equal(("Reception::requests", ACCEPTED), &beside.input(), frames, expected);
}

fn recorded(both: &mut Both, random: &mut Random, beside: &Beside) {
    let record = beside.record();
    both.equal(("Reception::save", ACCEPTED), &beside.input(), beside.reception.save(), record.clone());
    load(both, &record);
    for _ in 0..2 {
        let mut damaged = record.clone();
        damage::one(random, &mut damaged);
        load(both, &damaged);
    }
}

fn load(both: &mut Both, record: &[u8]) {
    let (mut map, mut buffer) = (vec![0; 4_096], vec![0; 32_768]);
    let model = model::load(record, &mut map, &mut buffer).map(|(number, length)| {
        map.truncate(map_size(length));
        buffer.truncate(length as usize);
        (number, length, map, buffer)
    });
    let library = Reception::load(record)
        .map(|loaded| (loaded.number(), loaded.length(), loaded.map().to_vec(), loaded.buffer().to_vec()));
    both.alike("Reception::load", &[Part::Bytes("record", record)], library, model);
}
