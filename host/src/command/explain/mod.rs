//! `thoweldeck explain FILE`: a frame or a record field by field, a frame's check worked out, where a piece goes in a
//! record, and the reason where something is refused.
mod accepted;
mod addresses;
pub mod faults;
mod fields;
mod frames;
mod items;
pub mod looks;
pub mod places;
mod records;
mod requests;
mod table;

pub use accepted::said;
pub use faults::Fault;
pub use fields::Kind;

use super::causes::Cause;
use super::files::Source;
use super::input::{self, Frames};
use super::names::escaped;
use super::words::Words;
use super::{bytes, holes, End, Ended, Failure, Out};
use std::path::Path;
use thoweldeck::{remainder, Piece, Reception};

// What is asked about an input: a kind that it is read as, the steps of the check, a record to hold its pieces against.
struct Asked {
    kind: Option<Kind>,
    steps: bool,
    record: Option<(Source, Reception)>,
}

/// `thoweldeck explain`.
pub fn run(words: Words, out: &mut Out<'_>) -> End {
    let [path] = words.exactly(["a frame"])?;
    let asked = Asked { kind: kind(&words)?, steps: words.has("--steps"), record: record(&words, &path)? };
    let source = Source::of(&path);
    if source != Source::Standard && path.is_dir() {
        return Err(Failure::Trouble(format!("{source}: is a folder, and no frame: name a file in it")));
    }
    let read = input::frames(&source.read()?).map_err(|strange| Failure::Trouble(format!("{source}: {strange}")))?;
    all(&source, &read, &asked, out)
}

// The kind that the words name.
fn kind(words: &Words) -> Result<Option<Kind>, Failure> {
    match words.text("--as") {
        Err(_) => Ok(None),
        Ok(name) => Kind::named(&name).map(Some).ok_or_else(|| {
            Failure::Trouble(format!("`--as {}` is none of piece, entry, request and record", escaped(&name)))
        }),
    }
}

// The record that the words name. Refuses 13.
fn record(words: &Words, path: &Path) -> Result<Option<(Source, Reception)>, Failure> {
    match words.path("--record").map(|record| Source::of(&record)) {
        Err(_) => Ok(None),
        Ok(Source::Standard) if Source::of(path) == Source::Standard => {
            Err(Failure::Trouble("standard input cannot be both the frame and the record".to_string()))
        }
        Ok(source) => source.record().map(|reception| Some((source, reception))),
    }
}

// Each frame of an input, with an empty line between two.
fn all(source: &Source, read: &Frames, asked: &Asked, out: &mut Out<'_>) -> End {
    let mut ended = Ended::Well;
    for (index, heard) in read.frames.iter().enumerate() {
        let name = heard.name(source);
        let kind = asked.kind.unwrap_or_else(|| looks::kind(&heard.bytes));
        if kind == Kind::Record && asked.record.is_some() {
            let line = format!("{name}: is read as a record, and `--record` is for a frame; `join` joins two records");
            return Err(Failure::Trouble(line));
        }
        if index > 0 {
            out.line("");
        }
        let size = bytes::counted(heard.bytes.len(), "byte");
        out.line(format!("{name}: {size} {}, read as {}", read.form.name(), kind.name()));
        if let (None, Some(line)) = (asked.kind, looks::line(&heard.bytes)) {
            out.line(line);
        }
        out.line("");
        ended = ended.max(explained(kind, &heard.bytes, asked, out));
    }
    for strange in &read.strange {
        out.line(format!("\n{source}: {strange}"));
        ended = Ended::Partly;
    }
    Ok(ended)
}

// A frame or a record field by field, and whether it is accepted: by itself, or a piece by the record that it is held
// against.
fn explained(kind: Kind, bytes: &[u8], asked: &Asked, out: &mut Out<'_>) -> Ended {
    let reception = asked.record.as_ref().map(|(_, reception)| reception).filter(|_| kind == Kind::Piece);
    let said = match reception {
        Some(reception) => accepted::taken(bytes, reception),
        None => accepted::said(kind, bytes),
    };
    let faults = match (&said, reception) {
        (Ok(_), _) => Vec::new(),
        (Err(reason), Some(reception)) => places::faults(bytes, reception, *reason),
        (Err(reason), None) => faults::of(kind, bytes, *reason),
    };
    table::say(&fields::of(kind, bytes), said.as_ref().err().copied(), &faults, out);
    if asked.steps {
        steps(kind, bytes, out);
    }
    if let Some((source, reception)) = &asked.record {
        out.line(format!("\n{source}: {}", holes::summary(reception)));
        in_record(kind, bytes, reception, out);
    }
    match said {
        Ok(line) => {
            out.line(format!("\naccepted: {line}"));
            Ended::Well
        }
        Err(reason) => {
            out.line(format!("\nrefused, {}", Cause::of_faults(reason, &faults)));
            Ended::Partly
        }
    }
}

// Where a piece goes in a record. What is damaged, or is no piece, goes nowhere.
fn in_record(kind: Kind, frame: &[u8], reception: &Reception, out: &mut Out<'_>) {
    match (kind, Piece::read(frame)) {
        (Kind::Piece, Ok(piece)) => {
            for line in places::lines(&piece, reception) {
                out.line(line);
            }
        }
        (Kind::Piece, Err(_)) => out.line("the frame is refused before the record is looked at"),
        _ => out.line(format!("nothing goes there: this is {}, and no piece", kind.name())),
    }
}

// The check byte by byte: the remainder of all information up to each.
fn steps(kind: Kind, frame: &[u8], out: &mut Out<'_>) {
    let information = match kind {
        Kind::Piece | Kind::Entry => frame.get(16..frame.len().saturating_sub(2)).unwrap_or(&[]),
        Kind::Request | Kind::Record => return,
    };
    out.line("\nplace  byte  remainder of the information up to here");
    // an information of more than 255 bytes is refused before its check is looked at
    for (index, byte) in information.iter().enumerate().take(255) {
        let remainder = remainder(&information[..=index]).to_be_bytes();
        out.line(format!("{:5}  {byte:02X}    {}", 16 + index, bytes::pairs(&remainder)));
    }
}

#[cfg(test)]
mod tests {
    use super::*;
    use crate::command::input::{Form, Heard};
    use crate::command::made::chance;

    const PIECE: &[u8] = include_bytes!(concat!(env!("CARGO_MANIFEST_DIR"), "/samples/survey/first/01.frame"));
    const ENTRY: &[u8] = include_bytes!(concat!(env!("CARGO_MANIFEST_DIR"), "/samples/survey/entry.frame"));

    // What is said about the frames of an input.
    fn text(frames: Vec<Heard>, asked: &Asked) -> (End, String) {
        let mut text = Vec::new();
        let read = Frames { form: Form::Raw, frames, strange: Vec::new() };
        let mut out = Out::to(&mut text);
        let end = all(&Source::Standard, &read, asked, &mut out);
        out.end().expect("a list takes all");
        (end, String::from_utf8(text).expect("a text"))
    }

    #[test]
    fn several_frames_are_explained_one_after_the_other() {
        let heard = |bytes: &[u8], line: usize| Heard { bytes: bytes.to_vec(), line: Some(line) };
        let asked = Asked { kind: None, steps: false, record: None };
        let (end, text) = text(vec![heard(ENTRY, 1), heard(&PIECE[..20], 4)], &asked);
        assert_eq!(end.expect("it is explained"), Ended::Partly);
        assert!(
            text.starts_with("standard input line 1: 115 bytes raw, read as a directory entry\n\nplace "),
            "{text}"
        );
        let between = "\n\naccepted: file 1201, `SURVEY.TXT`, has 2358 bytes\n\n\
                       standard input line 4: 20 bytes raw, read as a file piece\n\nplace ";
        assert!(text.contains(between), "{text}");
    }

    // The sum of the bytes that a table shows, and of those that it tells to be hidden.
    fn bytes_told(table: &str) -> usize {
        let rows = table.lines().skip_while(|line| !line.starts_with("place ")).skip(1);
        let rows = rows.take_while(|line| !line.is_empty()).filter(|line| !line.starts_with("       "));
        let told = |row: &str| match row[7..].strip_prefix("and ") {
            Some(hidden) => hidden.split(' ').next().and_then(|count| count.parse().ok()).expect("a count"),
            None => row.get(7..30).unwrap_or(&row[7..]).split_whitespace().count(),
        };
        rows.map(told).sum()
    }

    #[test]
    fn anything_is_explained() {
        let mut next = chance(1);
        let mut reception = Reception::open(1201, 2358).expect("a length");
        reception.take(PIECE).expect("a sample");
        let bases = [ENTRY.to_vec(), PIECE.to_vec(), reception.save(), Vec::new()];
        for round in 0..600 {
            let mut bytes = bases[round % 4].clone();
            for _ in 0..next() % 4 {
                let place = next() % (bytes.len() + 1);
                bytes.insert(place, next() as u8);
            }
            if next() % 2 == 0 {
                bytes.truncate(next() % (bytes.len() + 40));
            }
            bytes.extend((0..next() % 3 * 150).map(|place| place as u8 ^ next() as u8));
            let kind =
                [None, Some(Kind::Piece), Some(Kind::Entry), Some(Kind::Request), Some(Kind::Record)][next() % 5];
            let is_record = kind.unwrap_or_else(|| looks::kind(&bytes)) == Kind::Record;
            let record = Some((Source::Standard, reception.clone())).filter(|_| !is_record && round % 2 == 0);
            let asked = Asked { kind, steps: round % 7 == 0, record };
            let (end, text) = text(vec![Heard { bytes: bytes.clone(), line: None }], &asked);
            let accepted = text.contains("\naccepted: ");
            assert_eq!(end.expect("it is explained"), if accepted { Ended::Well } else { Ended::Partly });
            assert_ne!(accepted, text.contains("\nrefused, reason "), "{kind:?} {bytes:02X?}");
            // every byte is shown, or told to be hidden; what is refused has its place or a word behind the table
            assert_eq!(bytes_told(&text), bytes.len(), "{kind:?} {bytes:02X?}\n{text}");
            assert_eq!(accepted, !text.contains("<-- reason "), "{kind:?} {bytes:02X?}\n{text}");
        }
    }
}
