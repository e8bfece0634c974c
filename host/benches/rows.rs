//! The rows of the table: what is done with which input.
use crate::inputs::{self, Space};
use crate::sides::{black_box, Library, Plain, Side};
use thoweldeck::boundary::{EntryTold, HeaderTold, Second, Wanted};
use thoweldeck::Reason;

const VA3SFL: u64 = u64::from_le_bytes(*b"VA3SFL\0\0");
const UOSAT5: u64 = u64::from_le_bytes(*b"UOSAT5\x0B\0");

const PUT_BACK: &str = "put back before each call, not timed";
const UNCHANGED: &str = "nothing is written";
const SAME: &str = "not put back: each call writes the same bytes again";

/// A line of the table.
pub struct Row {
    pub operation: &'static str,
    pub case: &'static str,
    /// What happens to the lent space between calls, in words.
    pub space: &'static str,
    pub input: fn() -> Space,
    /// Whether the space is put back before each timed part.
    pub reset: bool,
    /// How many calls a timed part has, and how many timed parts a round.
    pub calls: u32,
    pub parts: u32,
    pub library: Work,
    pub plain: Work,
}

/// What one side does in a row: once, telling all its answers, and many times.
pub struct Work {
    pub answers: fn(&mut Space) -> Vec<u64>,
    pub repeat: fn(&mut Space, u32) -> u64,
}

/// An operation that either side can do, and that tells all its answers.
trait Operation {
    fn run<S: Side>(space: &mut Space, tell: impl FnMut(u64));
}

/// The work of a side at an operation.
fn work<S: Side, O: Operation>() -> Work {
    Work { answers: answers::<S, O>, repeat: repeat::<S, O> }
}

/// All that a side tells.
fn answers<S: Side, O: Operation>(space: &mut Space) -> Vec<u64> {
    let mut told = Vec::new();
    O::run::<S>(space, |value| told.push(value));
    told
}

/// The operation as often as asked; what it tells is kept as a sum, so that nothing can be left out.
fn repeat<S: Side, O: Operation>(space: &mut Space, calls: u32) -> u64 {
    let mut sum: u64 = 0;
    for _ in 0..calls {
        O::run::<S>(space, |value| sum = sum.wrapping_add(value));
    }
    sum
}

/// The number of the reason, 0 for none.
fn number_of(answer: Result<(), Reason>) -> u64 {
    answer.map_or_else(|reason| u64::from(reason.number()), |()| 0)
}

/// The remainder of bytes.
struct Remainder;

impl Operation for Remainder {
    fn run<S: Side>(space: &mut Space, mut tell: impl FnMut(u64)) {
        tell(u64::from(S::remainder(black_box(&space.bytes[..]))));
    }
}

/// Opening a reception.
struct Open;

impl Operation for Open {
    fn run<S: Side>(space: &mut Space, mut tell: impl FnMut(u64)) {
        tell(number_of(S::open(black_box(space.length), &mut space.map, &mut space.buffer)));
    }
}

/// Taking in all frames.
struct Take;

impl Operation for Take {
    fn run<S: Side>(space: &mut Space, mut tell: impl FnMut(u64)) {
        let (number, length) = (space.number, space.length);
        for frame in &space.frames {
            let mut new = 0;
            let frame = black_box(&frame[..]);
            tell(number_of(S::take(number, length, &mut space.map, &mut space.buffer, frame, &mut new)));
            tell(u64::from(new));
        }
    }
}

/// Joining the second reception into the first.
struct Join;

impl Operation for Join {
    fn run<S: Side>(space: &mut Space, mut tell: impl FnMut(u64)) {
        let mut new = 0;
        let (number, length) = (black_box(space.number), space.length);
        let second = Second { number, length, map: &space.second_map, buffer: &space.second_buffer };
        tell(number_of(S::join(number, length, &mut space.map, &mut space.buffer, second, &mut new)));
        tell(u64::from(new));
    }
}

/// Listing all holes, one after the other.
struct List;

impl Operation for List {
    fn run<S: Side>(space: &mut Space, mut tell: impl FnMut(u64)) {
        let mut place = 0;
        loop {
            let (mut start, mut size) = (0, 0);
            let answer = S::list(space.length, black_box(&space.map[..]), place, &mut start, &mut size);
            tell(number_of(answer));
            if answer.is_err() {
                return;
            }
            tell(u64::from(start));
            tell(u64::from(size));
            place = start + size;
        }
    }
}

/// Writing requests for all holes, one after the other.
struct Request;

impl Operation for Request {
    fn run<S: Side>(space: &mut Space, mut tell: impl FnMut(u64)) {
        let mut place = 0;
        loop {
            let (mut count, mut end) = (0, 0);
            let wanted = Wanted {
                destination: black_box(VA3SFL),
                source: black_box(UOSAT5),
                number: space.number,
                length: space.length,
                map: &space.map,
            };
            let answer = S::write_fill(wanted, place, &mut space.target, &mut count, &mut end);
            tell(number_of(answer));
            if answer.is_err() {
                return;
            }
            tell(u64::from(count));
            tell(u64::from(end));
            place = end;
        }
    }
}

/// Saving a reception.
struct Save;

impl Operation for Save {
    fn run<S: Side>(space: &mut Space, mut tell: impl FnMut(u64)) {
        let mut size = 0;
        let map = black_box(&space.map[..]);
        tell(number_of(S::save(space.number, space.length, map, &space.buffer, &mut space.target, &mut size)));
        tell(size as u64);
    }
}

/// Loading a record.
struct Load;

impl Operation for Load {
    fn run<S: Side>(space: &mut Space, mut tell: impl FnMut(u64)) {
        let (mut number, mut length) = (0, 0);
        let saved = black_box(&space.bytes[..]);
        tell(number_of(S::load(saved, &mut space.map, &mut space.buffer, &mut number, &mut length)));
        tell(u64::from(number));
        tell(u64::from(length));
    }
}

/// Reading a directory entry with all values of its header.
struct Entry;

impl Operation for Entry {
    fn run<S: Side>(space: &mut Space, mut tell: impl FnMut(u64)) {
        let mut told = EntryTold::default();
        let mut header = HeaderTold::default();
        tell(number_of(S::entry(black_box(&space.frames[0][..]), &mut told, &mut header)));
        let fields = [told.destination, told.source, told.start as u64, told.size as u64, header.name];
        let numbers = [told.number, told.offset, told.old, told.new, header.extension, header.length];
        let times = [header.created, header.modified, header.upload];
        let sums = [header.bodysum, header.headersum, header.body];
        let bytes = [told.flags, header.upset, header.kind, header.uploaded];
        fields.into_iter().for_each(&mut tell);
        numbers.into_iter().chain(times).map(u64::from).for_each(&mut tell);
        sums.into_iter().map(u64::from).for_each(&mut tell);
        bytes.into_iter().map(u64::from).for_each(&mut tell);
    }
}

/// A row whose space is put back before each call: each call is timed alone.
fn alone<O: Operation>(operation: &'static str, case: &'static str, input: fn() -> Space) -> Row {
    Row { reset: true, parts: 10, ..together::<O>(operation, case, 1, PUT_BACK, input) }
}

/// A row whose space need not be put back: as many calls as said are timed together.
fn together<O: Operation>(
    operation: &'static str,
    case: &'static str,
    calls: u32,
    space: &'static str,
    input: fn() -> Space,
) -> Row {
    let (library, plain) = (work::<Library, O>(), work::<Plain, O>());
    Row { operation, case, space, input, reset: false, calls, parts: 1, library, plain }
}

/// All rows.
pub fn rows() -> Vec<Row> {
    vec![
        together::<Remainder>("remainder", "253 bytes", 200, UNCHANGED, inputs::longest_content),
        together::<Remainder>("remainder", "1 byte: the cost of the call", 10_000, UNCHANGED, inputs::one_byte),
        together::<Open>("open", "L 32,768", 30, SAME, inputs::opened),
        alone::<Take>("take", "fresh: 244 bytes, from a map byte's start on", inputs::fresh),
        alone::<Take>("take", "fresh: 244 bytes, from inside a map byte on", inputs::fresh_inside),
        together::<Take>("take", "repeat: the same 244 bytes again", 100, SAME, inputs::repeat),
        alone::<Take>("take", "overlapping: half of the 244 bytes held", inputs::overlapping),
        alone::<Take>("take", "whole file: 135 pieces of 32,768 bytes", inputs::whole_file),
        alone::<Join>("join", "disjoint: first half, second half", inputs::halves),
        together::<Join>("join", "equal: both hold everything", 3, SAME, inputs::both_whole),
        alone::<Join>("join", "alternate: even positions, odd positions", inputs::even_and_odd),
        together::<List>("list all", "no hole: complete file", 20, UNCHANGED, inputs::complete),
        together::<List>("list all", "1 hole: opened", 20, UNCHANGED, inputs::opened),
        together::<List>("list all", "16,384 holes: every second position held", 1, UNCHANGED, inputs::every_second),
        together::<Request>("request all", "1 hole: opened", 20, SAME, inputs::one_hole),
        together::<Request>("request all", "16,384 holes: every second position held", 1, SAME, inputs::every_second),
        together::<Save>("save", "complete file", 3, SAME, inputs::complete),
        together::<Save>("save", "every second position held", 3, SAME, inputs::every_second),
        together::<Load>("load", "complete file", 3, SAME, inputs::complete_record),
        together::<Load>("load", "every second position held", 3, SAME, inputs::every_second_record),
        together::<Entry>("read entry", "figure 3.2, with all values of its header", 200, UNCHANGED, inputs::figure),
    ]
}
