//! Dumps, as `hexdump -C`, `xxd` and `od` write them. A dump is told by its shape: every line begins with a place, which
//! is the count of the bytes before it.
mod column;
mod row;

pub use row::place_in;

use super::super::files::MOST;
use super::lines::is_frame;
use super::strange::{Strange, Unread, Why};
use super::{text, Form, Frames, Heard};
use row::{Place, Row};

/// Whether a text begins as a dump does, with place 0.
pub fn begins(text: &str) -> bool {
    text::lines(text).next().map_or(false, |(_, line)| row::start(line).is_some())
}

/// The frames of a text of dumps, each with the line it begins in. A frame begins at each place 0, and a dump that cannot
/// be read takes nothing from the others: it is told beside them, up to the next place 0.
pub fn frames(text: &str) -> Result<Frames, Strange> {
    let mut read = Frames { form: Form::Dump, frames: Vec::new(), strange: Vec::new() };
    let mut open: Option<Dump<'_>> = None;
    let mut room = MOST;
    for (number, line) in text::lines(text) {
        if let Some(place) = row::start(line) {
            close(open.take(), &mut read);
            open = Some(Dump::new(number, place));
        }
        let added = match &mut open {
            None => continue,
            Some(dump) => dump.add(number, line, &mut room),
        };
        if let Err(unread) = added {
            // what stands before the line may be a frame all the same
            close(open.take().filter(|dump| is_frame(&dump.bytes)), &mut read);
            read.strange.push(Strange::at(number, unread));
        }
    }
    close(open, &mut read);
    match read.strange.first() {
        Some(first) if read.frames.is_empty() => Err(first.clone()),
        _ => Ok(read),
    }
}

// Adds the frame of a dump, or what is strange in it.
fn close(dump: Option<Dump<'_>>, read: &mut Frames) {
    match dump.map(Dump::end) {
        None => {}
        Some(Ok(heard)) => read.frames.push(heard),
        Some(Err(strange)) => read.strange.push(strange),
    }
}

// A dump that is being read.
struct Dump<'a> {
    // the line it begins in, and the place there, as which all others are written
    line: usize,
    place: Place<'a>,
    // the bases that its places may be in
    bases: Vec<u32>,
    bytes: Vec<u8>,
    // how many bytes the last line has
    last: usize,
    // the line of a `*` before the next place
    repeat: Option<usize>,
    // whether a place alone has ended it
    has_ended: bool,
    // whether a line has text, and the first line that lacks it, with its place
    has_text: bool,
    without_text: Option<(usize, &'a str)>,
}

impl<'a> Dump<'a> {
    fn new(line: usize, place: Place<'a>) -> Dump<'a> {
        Dump {
            line,
            bases: place.bases(),
            place,
            bytes: Vec::new(),
            last: 0,
            repeat: None,
            has_ended: false,
            has_text: false,
            without_text: None,
        }
    }

    // Adds a line, where so many bytes have room, which it takes.
    fn add(&mut self, number: usize, line: &'a str, room: &mut usize) -> Result<(), Unread<'a>> {
        if line == "*" && !self.has_ended && self.repeat.is_none() && self.last > 0 {
            self.repeat = Some(number);
            return Ok(());
        }
        if line == "*" {
            return Err((line, Why::Repeat));
        }
        let before = self.bytes.len();
        let row = Row::of(line, before)?;
        self.reach(&row.place, *room)?;
        match &row.column {
            None if row.bytes.is_empty() => self.has_ended = true,
            Some(column) if row.bytes.is_empty() => return Err((column.word, Why::Column(0))),
            _ => {
                self.compare(number, &row)?;
                self.last = row.bytes.len();
                self.bytes.extend(row.bytes);
            }
        }
        *room = room.saturating_sub(self.bytes.len() - before);
        Ok(())
    }

    // Checks that a place is that of the next line, and repeats the last one up to it behind a `*`.
    fn reach(&mut self, place: &Place<'a>, room: usize) -> Result<(), Unread<'a>> {
        let (before, last, repeats) = (self.bytes.len(), self.last, self.repeat.take().is_some());
        let missing = |base: &u32| place.value(*base)?.checked_sub(before);
        self.bases.retain(|base| match missing(base) {
            Some(missing) if repeats => missing > 0 && missing % last == 0,
            missing => missing == Some(0),
        });
        let mut counts = self.bases.iter().filter_map(missing);
        let count = match counts.next() {
            Some(count) if !self.has_ended && place.is_written_as(&self.place) => count,
            _ => return Err((place.word, Why::Place(before))),
        };
        if counts.any(|other| other != count) {
            return Err((place.word, Why::Base));
        }
        if count > room {
            return Err((place.word, Why::Far));
        }
        let line = self.bytes[before - last..].to_vec();
        self.bytes.extend(line.iter().cycle().take(count));
        Ok(())
    }

    // Compares the bytes of a line with the text beside them, where there is text.
    fn compare(&mut self, number: usize, row: &Row<'a>) -> Result<(), Unread<'a>> {
        match &row.column {
            Some(column) if !column.fits(&row.bytes) => Err((column.word, Why::Column(row.bytes.len()))),
            Some(column) if column.is_swapped(&row.bytes, row.group.len() / 2) => Err((row.group, Why::Swapped)),
            Some(_) => {
                self.has_text = true;
                Ok(())
            }
            None => {
                // the characters of blanks alone are cut off with the end of the line
                if self.without_text.is_none() && row.bytes.iter().any(|byte| *byte != b' ') {
                    self.without_text = Some((number, row.place.word));
                }
                Ok(())
            }
        }
    }

    // The frame, where the dump is whole.
    fn end(self) -> Result<Heard, Strange> {
        match (self.repeat, self.without_text) {
            (Some(line), _) => Err(Strange::at(line, ("*", Why::Repeat))),
            (_, Some((line, place))) if self.has_text => Err(Strange::at(line, (place, Why::NoColumn))),
            _ => Ok(Heard { bytes: self.bytes, line: Some(self.line) }),
        }
    }
}

#[cfg(test)]
mod tests;
