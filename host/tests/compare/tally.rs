//! Counts how often each operation gave each answer, so that no theme can become empty unnoticed.
use std::collections::BTreeMap;
use std::fmt::Write;

pub const ACCEPTED: &str = "accepted";

// A reason that stands more than once in an operation's order (01, "Numbered reasons") has a dash for each
// time before: 1' is the 1 of the information, and 7'' in a take is L's.
const CASES: [[&str; 16]; 3] = [
    [ACCEPTED, "1", "2", "3", "4", "5", "6", "7", "8", "9", "10", "11", "12", "13", "14", "15"],
    ["", "1'", "2'", "3'", "4'", "5'", "6'", "7'", "8'", "9'", "10'", "11'", "12'", "13'", "14'", "15'"],
    ["", "1''", "2''", "3''", "4''", "5''", "6''", "7''", "8''", "9''", "10''", "11''", "12''", "13''", "14''", "15''"],
];

/// The name of a reason, given for the first time in an order (0), the second (1) or the third (2).
pub fn case(reason: u8, time: usize) -> &'static str {
    CASES[time][usize::from(reason)]
}

/// An operation and its answers: for most, accepted and all the reasons of its order.
#[derive(Clone, Copy)]
pub struct Order {
    pub operation: &'static str,
    pub cases: &'static str,
}

pub const PIECE: Order = Order { operation: "piece", cases: "accepted 1 2 3 4 7 1' 6 5 7'" };
pub const ENTRY: Order = Order { operation: "entry", cases: "accepted 1 2 3 4 7 1' 6 5 14 8" };
pub const HEADER: Order = Order { operation: "header", cases: "accepted 8" };
pub const READ_REQUEST: Order = Order { operation: "read_request", cases: "accepted 1 2 3 4 7 1' 5 7' 10" };
pub const HOLE: Order = Order { operation: "hole", cases: "accepted 1 2 3 4 7 1' 5 7' 10" };
pub const OPEN: Order = Order { operation: "open", cases: "accepted 7 12 12'" };
pub const TAKE: Order = Order { operation: "take", cases: "accepted 1 2 3 4 7 1' 6 5 7' 7'' 12 12' 9 10 11" };
pub const JOIN: Order = Order { operation: "join", cases: "accepted 7 7' 12 12' 9 9' 11" };
pub const LIST: Order = Order { operation: "list", cases: "accepted 7 12 15" };
pub const SAVE: Order = Order { operation: "save", cases: "accepted 7 12 12' 12''" };
pub const LOAD: Order = Order { operation: "load", cases: "accepted 13 12 12'" };
pub const WRITE_FILL: Order = Order { operation: "write_fill", cases: "accepted 2 2' 7 12 15 12'" };
pub const WRITE_START: Order = Order { operation: "write_start", cases: "accepted 2 2' 12" };
pub const IS_HELD: Order = Order { operation: "is_held", cases: "held unheld" };
pub const COUNT_HELD: Order = Order { operation: "count_held", cases: "none some" };
pub const REMAINDER: Order = Order { operation: "remainder", cases: "accepted" };

/// The same order, or a part of it, for another operation.
pub const fn order(operation: &'static str, cases: &'static str) -> Order {
    Order { operation, cases }
}

/// Which addresses of a frame that an operation reads or writes have bit 7 of their SSID byte set: each answer is wanted.
pub const fn bits(operation: &'static str) -> Order {
    Order { operation, cases: "neither destination source both" }
}

const LEAST_ACCEPTED: u64 = 1_000;
const LEAST_REFUSED: u64 = 50;

#[derive(Default)]
pub struct Tally {
    counts: BTreeMap<(&'static str, &'static str), u64>,
    // what is noted beside an operation that is counted already
    notes: BTreeMap<(&'static str, &'static str), u64>,
}

impl Tally {
    pub fn count(&mut self, operation: &'static str, case: &'static str) {
        *self.counts.entry((operation, case)).or_insert(0) += 1;
    }

    /// Notes of an accepted frame which of its addresses have bit 7 of their SSID byte set.
    pub fn note_bits(&mut self, operation: &'static str, destination: bool, source: bool) {
        let case = match (destination, source) {
            (false, false) => "neither",
            (true, false) => "destination",
            (false, true) => "source",
            (true, true) => "both",
        };
        *self.notes.entry((operation, case)).or_insert(0) += 1;
    }

    pub fn of(&self, operation: &'static str, case: &'static str) -> u64 {
        let known = self.counts.get(&(operation, case)).or_else(|| self.notes.get(&(operation, case)));
        known.copied().unwrap_or(0)
    }

    /// All operations that were compared.
    pub fn operations(&self) -> u64 {
        self.counts.values().sum()
    }

    /// What an operation did not answer often enough.
    pub fn missing(&self, order: Order) -> Vec<String> {
        let least = |case| if case == ACCEPTED { LEAST_ACCEPTED } else { LEAST_REFUSED };
        let wanted = order.cases.split(' ').map(|case| (case, least(case)));
        let few = wanted.filter(|&(case, least)| self.of(order.operation, case) < least);
        few.map(|(case, least)| {
            format!("{} {case}: {} times, not {least}", order.operation, self.of(order.operation, case))
        })
        .collect()
    }

    /// The counts in one line.
    pub fn line(&self) -> String {
        let mut line = String::new();
        let mut last = "";
        let all: BTreeMap<_, _> = self.counts.iter().chain(&self.notes).collect();
        for (&(operation, case), count) in all {
            if operation != last {
                write!(line, "; {operation}").expect("a text takes all");
                last = operation;
            }
            write!(line, " {case}:{count}").expect("a text takes all");
        }
        line
    }
}

#[test]
fn too_few_answers_are_noticed() {
    let mut tally = Tally::default();
    for _ in 0..LEAST_ACCEPTED {
        tally.count("list", ACCEPTED);
    }
    for reason in [7, 12, 15] {
        for _ in 0..LEAST_REFUSED {
            tally.count("list", case(reason, 0));
        }
    }
    assert_eq!(tally.missing(LIST), Vec::<String>::new());
    assert_eq!(tally.operations(), LEAST_ACCEPTED + 3 * LEAST_REFUSED);
    assert_eq!(tally.missing(OPEN).len(), 4);
}

#[test]
fn bits_that_are_never_set_are_noticed() {
    let mut tally = Tally::default();
    for _ in 0..LEAST_REFUSED {
        tally.note_bits("piece", false, false);
        tally.note_bits("piece", true, true);
        tally.note_bits("piece", true, false);
    }
    assert_eq!(tally.missing(bits("piece")), ["piece source: 0 times, not 50"]);
    assert_eq!(tally.missing(bits("entry")).len(), 4);
    assert_eq!(tally.operations(), 0, "a note is no operation");
}
