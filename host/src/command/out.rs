//! What the command says: each line is written as it is made.
use std::fmt::Display;
use std::io::{self, Write};

/// Where lines go. A line that cannot be written stops none of the work: the first error is kept for the end, and what
/// is said after it goes nowhere.
pub struct Out<'a> {
    to: &'a mut dyn Write,
    failed: Option<io::Error>,
}

impl<'a> Out<'a> {
    /// Lines go to a writer.
    pub fn to(writer: &'a mut dyn Write) -> Out<'a> {
        Out { to: writer, failed: None }
    }

    /// Says a line.
    pub fn line(&mut self, line: impl Display) {
        if self.failed.is_none() {
            self.failed = writeln!(self.to, "{line}").and_then(|()| self.to.flush()).err();
        }
    }

    /// Whether all that was said has been written.
    pub fn end(self) -> io::Result<()> {
        match self.failed {
            Some(error) => Err(error),
            None => Ok(()),
        }
    }
}

#[cfg(test)]
mod tests {
    use super::*;

    // A writer that is full after some bytes.
    struct Small {
        written: Vec<u8>,
        room: usize,
    }

    impl Write for Small {
        fn write(&mut self, bytes: &[u8]) -> io::Result<usize> {
            if self.written.len() + bytes.len() > self.room {
                return Err(io::Error::new(io::ErrorKind::Other, "full"));
            }
            self.written.extend(bytes);
            Ok(bytes.len())
        }

        fn flush(&mut self) -> io::Result<()> {
            Ok(())
        }
    }

    #[test]
    fn a_line_that_cannot_be_written_is_told_at_the_end() {
        let mut small = Small { written: Vec::new(), room: 8 };
        let mut out = Out::to(&mut small);
        out.line("first");
        out.line("a second line");
        out.line("x");
        assert_eq!(out.end().expect_err("it was full").to_string(), "full");
        assert_eq!(small.written, b"first\n");
    }
}
