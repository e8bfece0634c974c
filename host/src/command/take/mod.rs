//! `thoweldeck take RECORD INPUTS…`: frames into a record, which is made where there is none.
mod decide;
mod tally;

use super::bytes::counted;
use super::causes::Cause;
use super::explain::{looks, Kind};
use super::files::Source;
use super::names::shown;
use super::words::Words;
use super::{files, input, End, Failure, Out};
use decide::Wanted;
use std::path::{Path, PathBuf};
use tally::{Came, Tally};
use thoweldeck::{Entry, Piece, Reason, Reception, Request};

pub fn run(words: Words, out: &mut Out<'_>) -> End {
    // whatever stands in the way, no frame is taken then, and the status says so
    take(&words, out).map_err(|failure| Failure::Trouble(failure.to_string()))
}

// Takes the frames that the words name.
fn take(words: &Words, out: &mut Out<'_>) -> End {
    let (path, names) = words.first_and_others("a record", "the frames to take")?;
    let wanted = Wanted {
        number: words.said("--number", "the number of a file")?,
        length: words.said("--length", "the length of a file")?,
    };
    let heard = heard(&path, &names)?;
    let target = files::Target::lock(&path)?;
    let is_new = !target.is_there();
    let mut reception = if is_new { opened(&path, wanted, &heard, out)? } else { extended(&path, wanted)? };
    let before = reception.held();
    let mut tally = Tally::default();
    for one in &heard {
        let (came, line) = one.taken(&mut reception);
        out.line(format!("{}: {line}", one.name));
        tally.add(came);
    }
    let record = reception.save();
    let notes = match is_new {
        true => target.create(&record).map_err(not_kept)?,
        false if reception.held() > before => target.replace(&record).map_err(not_kept)?,
        false => Vec::new(),
    };
    notes.iter().for_each(|note| out.line(note));
    out.line(&tally);
    out.line(format!("{}: {}", shown(&path), super::holes::summary(&reception)));
    Ok(tally.ended())
}

// A record that could not be written: what the lines above say was not kept.
fn not_kept(failure: Failure) -> Failure {
    Failure::Trouble(format!("{failure}; nothing of the frames above is kept"))
}

/// What was named: a frame by its name, or why there is none.
struct Named {
    name: String,
    frame: Result<Vec<u8>, String>,
}

// All that the words name, in their order. What cannot be read is told with the others, and keeps none of them back.
fn heard(record: &Path, names: &[PathBuf]) -> Result<Vec<Named>, Failure> {
    let sources: Vec<Source> = names.iter().map(|name| Source::of(name)).collect();
    if Source::of(record) == Source::Standard {
        return Err(Failure::Trouble("a record is a file, and `-` is standard input".to_string()));
    }
    if sources.iter().filter(|source| **source == Source::Standard).count() > 1 {
        return Err(Failure::Trouble("standard input can be read once, and `-` is there twice".to_string()));
    }
    Ok(sources.iter().flat_map(frames).collect())
}

// The frames in one source.
fn frames(source: &Source) -> Vec<Named> {
    let unread = |line: String| vec![Named { name: source.to_string(), frame: Err(line) }];
    match source.bytes() {
        Err(error) => unread(format!("cannot be read: {error}")),
        Ok(bytes) => match input::frames(&bytes) {
            Err(strange) => unread(strange.to_string()),
            Ok(read) => {
                let heard = read.frames.into_iter().map(|one| Named { name: one.name(source), frame: Ok(one.bytes) });
                heard.chain(read.strange.iter().flat_map(|strange| unread(strange.to_string()))).collect()
            }
        },
    }
}

// The reception of a record that is there, which is the wanted file's. Refuses 13, 9.
fn extended(path: &Path, wanted: Wanted) -> Result<Reception, Failure> {
    let reception = files::record(path)?;
    let (number, length) = (reception.number(), reception.length());
    let words = match (wanted.number, wanted.length) {
        (Some(other), _) if other != number => format!("it is of file {number}, and not of file {other}"),
        (_, Some(other)) if other != length => format!("its file has {length} bytes, and not {other}"),
        _ => return Ok(reception),
    };
    Err(Failure::Refused(shown(path), Cause { reason: Reason::OtherFile, words }))
}

// A fresh reception of the file that the words or the frames decide on; else a line on each frame, and no record.
fn opened(path: &Path, wanted: Wanted, heard: &[Named], out: &mut Out<'_>) -> Result<Reception, Failure> {
    let frames: Vec<&[u8]> = heard.iter().filter_map(|one| one.frame.as_deref().ok()).collect();
    let (number, length) = decide::file(wanted, &frames).map_err(|undecided| {
        for one in heard {
            out.line(format!("{}: {}", one.name, one.left()));
        }
        Failure::Trouble(format!("{}: is new, and {undecided}", shown(path)))
    })?;
    let what = format!("{}: a new record of file {number}, {}", shown(path), counted(length as usize, "byte"));
    let reception =
        Reception::open(number, length).map_err(|_| Failure::Refused(what.clone(), Cause::of_length(length)))?;
    out.line(&what);
    Ok(reception)
}

impl Named {
    // Takes the frame in: what came of it, and a line on it.
    fn taken(&self, reception: &mut Reception) -> (Came, String) {
        let frame = match &self.frame {
            Err(line) => return (Came::Unread, line.clone()),
            Ok(frame) => frame,
        };
        if let Some((came, line)) = other_than_piece(frame) {
            return (came, line + &differs(reception, frame));
        }
        match reception.take(frame) {
            Ok(0) => (Came::Repeat, format!("{}, a repeat: nothing new", spot(frame))),
            Ok(new) => (Came::New, format!("{}, {new} new", spot(frame))),
            Err(reason) => match looks::stray(frame) {
                Some(line) => (Came::Unread, line),
                None => {
                    let came = Came::refused(reason);
                    let hint = looks::with_link_check(frame).filter(|_| came == Came::Damaged);
                    let hint = hint.map_or(String::new(), |line| format!("; {line}"));
                    (came, format!("refused, {}{hint}", Cause::of_piece(frame, reception, reason)))
                }
            },
        }
    }

    // A line on a frame that is not taken, since it is not known into which record.
    fn left(&self) -> String {
        let frame = match &self.frame {
            Err(line) => return line.clone(),
            Ok(frame) => frame,
        };
        match (other_than_piece(frame), Piece::read(frame)) {
            (Some((_, line)), _) => line,
            (None, Ok(piece)) => format!("a piece of file {}, not taken", piece.number),
            (None, Err(reason)) => looks::stray(frame)
                .unwrap_or_else(|| format!("refused, {}", Cause::of_frame(Kind::Piece, frame, reason))),
        }
    }
}

// What a frame says that is no piece: a directory entry, by its protocol, or a request, if it is read as one. There is
// nothing of it to be taken.
fn other_than_piece(frame: &[u8]) -> Option<(Came, String)> {
    if let Ok(request) = Request::read(frame) {
        return Some((Came::Request, format!("a request for file {}, and no piece", request.number)));
    }
    match Entry::read(frame) {
        Ok(entry) => {
            let length = counted(entry.header.length as usize, "byte");
            Some((Came::Entry, format!("directory entry of file {}, {length}", entry.number)))
        }
        // the protocol is the directory's, so what is wrong is wrong with the entry
        Err(reason) if frame.get(15) == Some(&0xBD) && Piece::read(frame) == Err(Reason::Protocol) => {
            Some((Came::refused(reason), format!("refused, {}", Cause::of_frame(Kind::Entry, frame, reason))))
        }
        Err(_) => None,
    }
}

// A word on an entry of the record's file that tells another length.
fn differs(reception: &Reception, frame: &[u8]) -> String {
    match Entry::read(frame) {
        Ok(entry) if entry.number == reception.number() && entry.header.length != reception.length() => {
            format!(", and the record has {}", counted(reception.length() as usize, "byte"))
        }
        _ => String::new(),
    }
}

// Where an accepted piece stands in its file.
fn spot(frame: &[u8]) -> String {
    let piece = Piece::read(frame).expect("what is taken in is a piece");
    format!("{} at {}", counted(piece.bytes.len(), "byte"), piece.offset)
}
