//! The frames in what was read: one raw frame, or those of a text, in hexadecimal or in a dump.
mod dump;
mod lines;
mod pairs;
mod strange;
mod text;

pub use strange::Strange;
pub use text::as_text;

use super::files::Source;

/// The frames in an input.
#[derive(Clone, Debug, PartialEq, Eq)]
pub struct Frames {
    /// How the input has them.
    pub form: Form,
    /// The frames, in their order. There is one at least.
    pub frames: Vec<Heard>,
    /// What cannot be read beside the frames.
    pub strange: Vec<Strange>,
}

/// How an input has its frames.
#[derive(Clone, Copy, Debug, PartialEq, Eq)]
pub enum Form {
    /// One frame, its bytes as they are.
    Raw,
    /// A text of hexadecimal digits.
    Hexadecimal,
    /// A text as `hexdump -C`, `xxd` or `od` write it: each line with its place, and often with its characters.
    Dump,
}

impl Form {
    /// The form in words, behind a count of bytes.
    pub fn name(self) -> &'static str {
        match self {
            Form::Raw => "raw",
            Form::Hexadecimal => "in hexadecimal",
            Form::Dump => "in a dump",
        }
    }
}

/// A frame of an input.
#[derive(Clone, Debug, PartialEq, Eq)]
pub struct Heard {
    /// Its bytes.
    pub bytes: Vec<u8>,
    /// The line of the text that it begins in, from 1, where the text has several frames.
    pub line: Option<usize>,
}

impl Heard {
    /// What it is called: its source, and its line where that has several frames.
    pub fn name(&self, source: &Source) -> String {
        self.line.map_or(source.to_string(), |line| format!("{source} line {line}"))
    }
}

/// The frames in the bytes of an input. A text is read as hexadecimal or as a dump; what is none is one raw frame.
pub fn frames(bytes: &[u8]) -> Result<Frames, Strange> {
    let text = match as_text(bytes) {
        None => {
            let only = Heard { bytes: bytes.to_vec(), line: None };
            return Ok(Frames { form: Form::Raw, frames: vec![only], strange: Vec::new() });
        }
        Some(text) => text,
    };
    let mut read = match dump::begins(&text) {
        true => dump::frames(&text)?,
        false => lines::frames(&text)?,
    };
    if let ([only], []) = (&mut read.frames[..], &read.strange[..]) {
        only.line = None;
    }
    Ok(read)
}

#[cfg(test)]
mod tests;
