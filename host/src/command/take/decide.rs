//! Which file a new record is of: by the words, or by what the frames say of it. Nothing is guessed: where the frames
//! name several files or lengths, the words must decide.
use std::collections::BTreeSet;
use std::fmt;
use thoweldeck::{Entry, Header, Piece};

/// What the words say about the file.
#[derive(Clone, Copy, Debug, Default)]
pub struct Wanted {
    pub number: Option<u32>,
    pub length: Option<u32>,
}

/// Why it is not decided which file a record is of.
#[derive(Clone, Debug, PartialEq, Eq)]
pub enum Undecided {
    /// No frame names a file.
    NoFile,
    /// The frames name several files, and no directory entry picks one.
    SeveralFiles(BTreeSet<u32>),
    /// No frame says how long the file with a number is; whether its first piece is among them.
    NoLength(u32, bool),
    /// The frames say several lengths of it.
    SeveralLengths(u32, BTreeSet<u32>),
}

impl fmt::Display for Undecided {
    fn fmt(&self, f: &mut fmt::Formatter<'_>) -> fmt::Result {
        let either = |numbers: &BTreeSet<u32>| numbers.iter().map(u32::to_string).collect::<Vec<_>>().join(", ");
        match self {
            Undecided::NoFile => {
                f.write_str("the file's number is not known: give a frame with a piece of it, or `--number` and `--length`")
            }
            Undecided::SeveralFiles(numbers) => {
                write!(f, "the frames are of several files ({}): say which by `--number`", either(numbers))
            }
            Undecided::NoLength(number, true) => write!(
                f,
                "the file's length is not known: the first piece of file {number} has no whole file header that keeps the rules; give a frame with its directory entry, or `--length`"
            ),
            Undecided::NoLength(number, false) => write!(
                f,
                "the file's length is not known: give a frame with the directory entry or the first piece of file {number}, or `--length`"
            ),
            Undecided::SeveralLengths(number, lengths) => {
                write!(f, "the frames tell several lengths of file {number} ({}): say which by `--length`", either(lengths))
            }
        }
    }
}

// What a frame says of a file: its number, and its length where a header tells it.
struct Told {
    number: u32,
    length: Option<u32>,
    by_entry: bool,
    is_first: bool,
}

// What a frame says, if it is a directory entry or a piece. The header of a file stands at its start, so a piece at
// offset 0 may have it whole; the library reads it.
fn told(frame: &[u8]) -> Option<Told> {
    if let Ok(entry) = Entry::read(frame) {
        return Some(Told { number: entry.number, length: Some(entry.header.length), by_entry: true, is_first: false });
    }
    let piece = Piece::read(frame).ok()?;
    let is_first = piece.offset == 0;
    let header = Some(piece).filter(|_| is_first).and_then(|piece| Header::read(piece.bytes, piece.number).ok());
    Some(Told { number: piece.number, length: header.map(|header| header.length), by_entry: false, is_first })
}

/// The number and the length of the file that a new record is of.
pub fn file(wanted: Wanted, frames: &[&[u8]]) -> Result<(u32, u32), Undecided> {
    let all: Vec<Told> = frames.iter().filter_map(|frame| told(frame)).collect();
    let number = wanted.number.map_or_else(|| number(&all), Ok)?;
    let length = wanted.length.map_or_else(|| length(&all, number), Ok)?;
    Ok((number, length))
}

// The one file that all frames name, or else the one that the directory entries among them name.
fn number(all: &[Told]) -> Result<u32, Undecided> {
    let named: BTreeSet<u32> = all.iter().map(|told| told.number).collect();
    let by_entries: BTreeSet<u32> = all.iter().filter(|told| told.by_entry).map(|told| told.number).collect();
    match (only(&named).or_else(|| only(&by_entries)), named.is_empty()) {
        (Some(number), _) => Ok(number),
        (None, true) => Err(Undecided::NoFile),
        (None, false) => Err(Undecided::SeveralFiles(named)),
    }
}

// The one length that the frames tell of a file.
fn length(all: &[Told], number: u32) -> Result<u32, Undecided> {
    let of_it = || all.iter().filter(|told| told.number == number);
    let lengths: BTreeSet<u32> = of_it().filter_map(|told| told.length).collect();
    match (only(&lengths), lengths.is_empty()) {
        (Some(length), _) => Ok(length),
        (None, true) => Err(Undecided::NoLength(number, of_it().any(|told| told.is_first))),
        (None, false) => Err(Undecided::SeveralLengths(number, lengths)),
    }
}

// The one member of a set that has just one.
fn only(set: &BTreeSet<u32>) -> Option<u32> {
    set.iter().next().filter(|_| set.len() == 1).copied()
}
