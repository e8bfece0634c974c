//! Files that the command reads: records and frames; and those that it writes, by way of `writing`.
use super::causes::Cause;
use super::names::shown;
pub use super::writing::{write_another, Target};
use super::Failure;
use std::fmt;
use std::fs::File;
use std::io::{self, ErrorKind, Read};
use std::path::{Path, PathBuf};
use thoweldeck::Reception;

/// More bytes than a record has, or a text with every frame of a long pass in hexadecimal.
pub const MOST: usize = 1 << 24;

/// Where something is read from.
#[derive(Clone, Debug, PartialEq, Eq)]
pub enum Source {
    /// A file.
    File(PathBuf),
    /// Standard input, which the word `-` names.
    Standard,
}

impl Source {
    /// The source that a word names.
    pub fn of(word: &Path) -> Source {
        if word.as_os_str() == "-" {
            Source::Standard
        } else {
            Source::File(word.to_path_buf())
        }
    }

    /// All that is there. What is longer than any input is an error, and is not read to its end.
    pub fn bytes(&self) -> io::Result<Vec<u8>> {
        let mut bytes = Vec::new();
        let most = MOST as u64 + 1;
        match self {
            Source::File(path) => File::open(path)?.take(most).read_to_end(&mut bytes)?,
            Source::Standard => io::stdin().lock().take(most).read_to_end(&mut bytes)?,
        };
        if bytes.len() > MOST {
            return Err(io::Error::new(ErrorKind::InvalidData, "it is longer than 16 MiB"));
        }
        Ok(bytes)
    }

    /// The same, for a part of the command that can do nothing without it.
    pub fn read(&self) -> Result<Vec<u8>, Failure> {
        self.bytes().map_err(|error| Failure::Trouble(format!("{self}: cannot be read: {error}")))
    }

    /// The reception in a record. Refuses 13.
    pub fn record(&self) -> Result<Reception, Failure> {
        let bytes = self.read()?;
        Reception::load(&bytes).map_err(|_| Failure::Refused(self.to_string(), Cause::of_record(&bytes)))
    }
}

impl fmt::Display for Source {
    fn fmt(&self, f: &mut fmt::Formatter<'_>) -> fmt::Result {
        match self {
            Source::File(path) => f.write_str(&shown(path)),
            Source::Standard => f.write_str("standard input"),
        }
    }
}

/// The reception in a record's file. Refuses 13.
pub fn record(path: &Path) -> Result<Reception, Failure> {
    match Source::of(path) {
        Source::Standard => Err(Failure::Trouble(
            "`-` is standard input, which `take`, `explain`, `holes` and `show` read, and no other part".to_string(),
        )),
        file => file.record(),
    }
}

/// Whether two paths lead to one file.
pub fn is_same(a: &Path, b: &Path) -> bool {
    a == b || matches!((a.canonicalize(), b.canonicalize()), (Ok(a), Ok(b)) if a == b)
}

/// The line for a file that cannot be used.
pub fn trouble(path: &Path, what: &str, error: &io::Error) -> Failure {
    Failure::Trouble(format!("{}: {what}: {error}", shown(path)))
}
