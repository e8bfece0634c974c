//! A text of hexadecimal digits: its bytes, and which of its lines are a frame.
//!
//! A frame may have a line of its own, or several. The library tells which: it accepts lines alone, or lines together.
//! So no frame that is there is lost, whatever is damaged beside it, or strange in a line of its own.
use super::dump;
use super::pairs;
use super::strange::{Strange, Unread, Why};
use super::{text, Form, Frames, Heard};
use thoweldeck::{Entry, Piece, Request};

// The most bytes that a frame has: 16 and an information of 255.
const LONGEST: usize = 271;
// No line of a frame that goes over several has more bytes.
const WIDEST: usize = 64;

/// The frames of a text, each with the line it begins in. No frame goes over a line that cannot be read, and such a line
/// is told beside the frames, where the library accepts one of them. Else it may be a part of any. Several lines beside it
/// are a frame only by their check.
pub fn frames(text: &str) -> Result<Frames, Strange> {
    let read = Read::of(text)?;
    let starts = read.starts();
    let ends = starts.iter().skip(1).copied().chain([read.lines.len()]);
    let is_told = |(start, end): &(usize, usize)| {
        let is_beside_strange = read.lines[*start].is_behind_strange || read.is_broken(*end);
        !is_beside_strange || end - start == 1 || is_checked(read.of_lines(*start, *end))
    };
    let heard = |(start, end): (usize, usize)| Heard {
        bytes: read.of_lines(start, end).to_vec(),
        line: Some(read.lines[start].number),
    };
    let frames: Vec<Heard> = starts.iter().copied().zip(ends).filter(is_told).map(heard).collect();
    match read.strange.first() {
        Some(first) if !frames.iter().any(|heard| is_frame(&heard.bytes)) => Err(first.clone()),
        _ => Ok(Frames { form: Form::Hexadecimal, frames, strange: read.strange }),
    }
}

// The bytes of a text, the lines that they stand in, the lines that cannot be read, and whether the last one can.
struct Read {
    bytes: Vec<u8>,
    lines: Vec<Line>,
    strange: Vec<Strange>,
    ends_well: bool,
}

// A line that has bytes: its number from 1, how many bytes stand before it, and whether it stands behind a line that
// cannot be read.
struct Line {
    number: usize,
    before: usize,
    is_behind_strange: bool,
}

impl Read {
    // Reads the digits of a text. A comment goes from `#` to the end of its line.
    fn of(text: &str) -> Result<Read, Strange> {
        let mut read = Read { bytes: Vec::new(), lines: Vec::new(), strange: Vec::new(), ends_well: true };
        for (number, line) in text::lines(text) {
            let before = read.bytes.len();
            let added = add(line, &mut read.bytes);
            match added {
                Ok(()) => read.lines.push(Line { number, before, is_behind_strange: !read.ends_well }),
                Err(unread) => {
                    read.bytes.truncate(before);
                    read.strange.push(Strange::at(number, unread));
                }
            }
            read.ends_well = added.is_ok();
        }
        match (read.lines.is_empty(), read.strange.first()) {
            (true, None) => Err(Strange::Nothing),
            (true, Some(first)) => Err(first.clone()),
            (false, _) => Ok(read),
        }
    }

    // The bytes of the lines from one to before another.
    fn of_lines(&self, start: usize, end: usize) -> &[u8] {
        let place = |line: usize| self.lines.get(line).map_or(self.bytes.len(), |line| line.before);
        &self.bytes[place(start)..place(end)]
    }

    // The lines that frames begin in. Lines that are a frame only together tell that frames have several lines each; else
    // each has one, if one at least is a frame alone, if most of them begin as a frame does, or if they are too wide.
    fn starts(&self) -> Vec<usize> {
        let count = self.lines.len();
        let (starts, some_together) = self.runs();
        let some_alone = (0..count).any(|line| self.accepted(line, line + 1) == Some(line + 1));
        let heads = (0..count).filter(|line| self.begins(*line)).count();
        let some_wide = (0..count).any(|line| self.of_lines(line, line + 1).len() > WIDEST);
        if !some_together && (some_alone || some_wide || 2 * heads > count) {
            return (0..count).collect();
        }
        starts
    }

    // The lines that frames begin in, where a frame has the lines that are one together, or else all up to the next line
    // that begins as a frame does; and whether some frame has several lines and is accepted.
    fn runs(&self) -> (Vec<usize>, bool) {
        let (mut starts, mut some_together, mut line) = (Vec::new(), false, 0);
        while line < self.lines.len() {
            starts.push(line);
            let is_next = |other: &usize| self.begins(*other) || self.lines[*other].is_behind_strange;
            let next = (line + 1..self.lines.len()).find(is_next).unwrap_or(self.lines.len());
            let end = self.accepted(line, next);
            some_together |= end.map_or(false, |end| end > line + 1);
            line = end.unwrap_or(next);
        }
        (starts, some_together)
    }

    // Where a frame ends that begins in a line and is accepted: at the next one's beginning if that fits. Else before it,
    // if a damaged one stands behind it, or beyond it, if a frame is among its data. Zero bytes behind a frame leave its
    // check right, so lines of zeros are no part of it where it fits without them. A request has no check: it ends at the
    // next frame, or with its line.
    fn accepted(&self, line: usize, next: usize) -> Option<usize> {
        if !self.begins(line) {
            return None;
        }
        let fits = |end: &usize| is_checked(self.of_lines(line, *end));
        let is_zero = |end: &usize| self.of_lines(*end, *end + 1).iter().all(|byte| *byte == 0);
        if fits(&next) {
            return (line + 1..next).rev().take_while(|end| is_zero(end) && fits(end)).last().or(Some(next));
        }
        let is_strange = |end: &usize| self.lines.get(*end - 1).map_or(false, |last| last.is_behind_strange);
        let checked = (line + 1..=self.lines.len())
            .take_while(|end| self.of_lines(line, *end).len() <= LONGEST && (*end == line + 1 || !is_strange(end)))
            .find(fits);
        let is_request = |end: &usize| Request::read(self.of_lines(line, *end)).is_ok();
        checked
            .or_else(|| Some(next).filter(|next| !self.is_broken(*next)).into_iter().chain([line + 1]).find(is_request))
    }

    // Whether the line before another is followed by one that cannot be read.
    fn is_broken(&self, next: usize) -> bool {
        self.lines.get(next).map_or(!self.ends_well, |line| line.is_behind_strange)
    }

    // Whether the bytes from a line on begin as a frame does: bit 0 of the addresses, and the control byte.
    fn begins(&self, line: usize) -> bool {
        let from = &self.bytes[self.lines[line].before..];
        from.len() >= 16 && from[..13].iter().all(|byte| byte & 1 == 0) && from[13] & 1 == 1 && from[14] == 0x03
    }
}

// Adds the bytes of a line.
fn add<'a>(line: &'a str, bytes: &mut Vec<u8>) -> Result<(), Unread<'a>> {
    let digits = line.split('#').next().unwrap_or(line).trim_end();
    if let Some(place) = dump::place_in(digits) {
        return Err((place, Why::Start));
    }
    let words = || digits.split_whitespace();
    if let (Some(word), true) =
        (words().find(|word| pairs::is_joined(word)), words().any(|word| !pairs::is_joined(word)))
    {
        return Err((word, Why::Mixed));
    }
    words().try_for_each(|word| pairs::add(word, bytes))
}

/// Whether a frame is accepted.
pub fn is_frame(frame: &[u8]) -> bool {
    is_checked(frame) || Request::read(frame).is_ok()
}

// Whether a frame is accepted by its check.
fn is_checked(frame: &[u8]) -> bool {
    Piece::read(frame).is_ok() || Entry::read(frame).is_ok()
}

#[cfg(test)]
mod tests;
