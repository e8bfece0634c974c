//! Runs the library and the model on the same input and compares all that they answer, tell and change.
mod frames;
mod receptions;
mod records;
mod requests;

use crate::model::{Address, Answer};
use crate::random::Random;
use crate::tally::{case, Tally};
use std::fmt::Debug;
use thoweldeck::Reason;

/// A part of an operation's input, for the message of a failure.
pub enum Part<'a> {
    Number(&'static str, u64),
    Bytes(&'static str, &'a [u8]),
}

/// What both answered alike.
pub struct Compared<T> {
    pub answer: Answer<T>,
}

/// All that an operation leaves: its reason or 0, the lent numbers and every byte of the lent slices.
#[derive(PartialEq, Eq)]
pub struct Outcome<T> {
    pub reason: u8,
    pub told: T,
    pub lent: Vec<Vec<u8>>,
}

impl<T> Outcome<T> {
    pub fn library(answer: Result<(), Reason>, told: T, lent: Vec<Vec<u8>>) -> Outcome<T> {
        Outcome { reason: number(answer), told, lent }
    }

    /// The model's answer is told; a refusal leaves what was there before.
    pub fn model(answer: &Answer<T>, before: T, lent: Vec<Vec<u8>>) -> Outcome<T>
    where
        T: Clone,
    {
        match answer {
            Ok(told) => Outcome { reason: 0, told: told.clone(), lent },
            Err(reason) => Outcome { reason: *reason, told: before, lent },
        }
    }
}

// The number of a reason, or 0.
fn number(answer: Result<(), Reason>) -> u8 {
    answer.err().map_or(0, Reason::number)
}

pub struct Both {
    theme: &'static str,
    seed: u64,
    round: u64,
    rubbish: Random,
    pub tally: Tally,
}

impl Both {
    pub fn new(theme: &'static str, seed: u64) -> Both {
        Both { theme, seed, round: 0, rubbish: Random::new(seed, "rubbish", 0), tally: Tally::default() }
    }

    pub fn begin(&mut self, round: u64) {
        self.round = round;
        self.rubbish = Random::new(self.seed, "rubbish", round);
    }

    /// Counts one operation, after comparing everything it left.
    pub fn compare<T: PartialEq + Debug>(
        &mut self,
        (operation, case): (&'static str, &'static str),
        input: &[Part],
        library: &Outcome<T>,
        model: &Outcome<T>,
    ) {
        if library != model {
            let answers = answers(library, model);
            self.fail(operation, input, &answers);
        }
        self.tally.count(operation, case);
    }

    /// Counts one operation that lends nothing to be changed, after comparing the answers.
    pub fn equal<T: PartialEq + Debug>(
        &mut self,
        (operation, case): (&'static str, &'static str),
        input: &[Part],
        library: T,
        model: T,
    ) {
        if library != model {
            self.fail(operation, input, &format!("library: {library:?}\nmodel:   {model:?}"));
        }
        self.tally.count(operation, case);
    }

    /// The same for an answer that can be a refusal.
    pub fn alike<T: PartialEq + Debug>(
        &mut self,
        operation: &'static str,
        input: &[Part],
        library: Result<T, Reason>,
        model: Answer<T>,
    ) {
        let case = case(model.as_ref().err().copied().unwrap_or(0), 0);
        self.equal((operation, case), input, library.map_err(Reason::number), model);
    }

    /// Notes of an accepted frame which of its addresses have bit 7 set.
    pub fn note_bits(&mut self, operation: &'static str, destination: Address, source: Address) {
        self.tally.note_bits(operation, destination.bit7 == 1, source.bit7 == 1);
    }

    /// The same by the frame's own SSID bytes, where nothing is told of them.
    pub fn note_bits_of(&mut self, operation: &'static str, frame: &[u8]) {
        self.tally.note_bits(operation, frame[6] >= 0x80, frame[13] >= 0x80);
    }

    /// A law that the test states in its own words; it is no compared operation.
    pub fn claim(&self, holds: bool, law: &str, input: &[Part]) {
        if !holds {
            self.fail(law, input, "this does not hold");
        }
    }

    fn fail(&self, operation: &str, input: &[Part], answers: &str) -> ! {
        let Both { theme, seed, round, .. } = self;
        let input: String = input.iter().map(shown).collect();
        panic!("theme {theme}, seed {seed}, round {round}, operation {operation}\n{input}{answers}");
    }
}

fn shown(part: &Part) -> String {
    match part {
        Part::Number(name, number) => format!("input {name}: {number}\n"),
        Part::Bytes(name, bytes) => format!("input {name}, {} bytes: {}\n", bytes.len(), hex(bytes)),
    }
}

/// Bytes as hexadecimal digits.
pub fn hex(bytes: &[u8]) -> String {
    bytes.iter().map(|byte| format!("{byte:02X}")).collect()
}

// Both answers, and those lent slices that are not the same after the two.
fn answers<T: PartialEq + Debug>(library: &Outcome<T>, model: &Outcome<T>) -> String {
    let mut text = format!(
        "library: reason {}, told {:?}\nmodel:   reason {}, told {:?}\n",
        library.reason, library.told, model.reason, model.told
    );
    for (index, (after, expected)) in library.lent.iter().zip(&model.lent).enumerate() {
        if after != expected {
            text += &format!("lent slice {index}, library: {}\n", hex(after));
            text += &format!("lent slice {index}, model:   {}\n", hex(expected));
        }
    }
    text
}

#[cfg(test)]
mod noticed {
    use super::*;

    const ALIKE: Outcome<u32> = Outcome { reason: 0, told: 1, lent: Vec::new() };

    fn compared(library: Outcome<u32>) -> u64 {
        let mut both = Both::new("noticed", 5);
        let model = Outcome { lent: vec![vec![1, 2]], ..ALIKE };
        both.begin(3);
        both.compare(("list", case(0, 0)), &[Part::Bytes("map", &[0xAB])], &library, &model);
        both.tally.operations()
    }

    #[test]
    fn what_is_alike_counts_one_operation() {
        assert_eq!(compared(Outcome { lent: vec![vec![1, 2]], ..ALIKE }), 1);
    }

    #[test]
    #[should_panic(
        expected = "theme noticed, seed 5, round 3, operation list\ninput map, 1 bytes: AB\nlibrary: reason 7"
    )]
    fn another_reason() {
        compared(Outcome { reason: 7, lent: vec![vec![1, 2]], ..ALIKE });
    }

    #[test]
    #[should_panic(expected = "told 2")]
    fn another_lent_number() {
        compared(Outcome { told: 2, lent: vec![vec![1, 2]], ..ALIKE });
    }

    #[test]
    #[should_panic(expected = "lent slice 0, library: 0103")]
    fn another_lent_byte() {
        compared(Outcome { lent: vec![vec![1, 3]], ..ALIKE });
    }
}
