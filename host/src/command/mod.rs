//! The parts of the command: each takes its words, says what it has to say line by line, and answers how it ended.
mod bytes;
mod causes;
mod explain;
mod files;
mod headers;
mod help;
mod holes;
mod input;
mod join;
mod list;
mod lock;
#[cfg(test)]
mod made;
mod names;
mod out;
mod paths;
mod request;
mod save;
mod show;
mod take;
mod words;
mod writing;

pub use out::Out;

use causes::Cause;
use names::shown;
use std::ffi::OsString;
use std::fmt;
use words::Words;

/// How a part of the command ended, where it did what it was asked.
#[derive(Clone, Copy, Debug, PartialEq, Eq, PartialOrd, Ord)]
pub enum Ended {
    /// All of it was done.
    Well,
    /// Something was refused, or something that was named could not be read. The lines say what, and the rest was done.
    Partly,
    /// A piece of the record's own file does not fit the record.
    Contradicted,
}

/// Why a part of the command could not do what it was asked.
#[derive(Debug)]
pub enum Failure {
    /// What was refused, and why.
    Refused(String, Cause),
    /// Something that has no number stands in the way of it: there are holes left, a file is there already.
    Stopped(String),
    /// The words make no sense, or a file cannot be read or written.
    Trouble(String),
}

impl fmt::Display for Failure {
    fn fmt(&self, f: &mut fmt::Formatter<'_>) -> fmt::Result {
        match self {
            Failure::Refused(what, cause) => write!(f, "{what}: refused, {cause}"),
            Failure::Stopped(line) | Failure::Trouble(line) => f.write_str(line),
        }
    }
}

/// How a part of the command ended.
pub type End = Result<Ended, Failure>;

/// The exit status, as the help's page has it.
pub fn status(end: &End) -> i32 {
    match end {
        Ok(Ended::Well) => 0,
        Ok(Ended::Partly) | Err(Failure::Refused(..)) | Err(Failure::Stopped(_)) => 1,
        Err(Failure::Trouble(_)) => 2,
        Ok(Ended::Contradicted) => 3,
    }
}

/// A part of the command: its name, what runs it, its switches, and its options, each with a value.
struct Part {
    name: &'static str,
    run: fn(Words, &mut Out<'_>) -> End,
    switches: &'static [&'static str],
    options: &'static [&'static str],
}

const PARTS: [Part; 8] = [
    Part { name: "explain", run: explain::run, switches: &["--steps"], options: &["--as", "--record"] },
    Part { name: "take", run: take::run, switches: &[], options: &["--number", "--length"] },
    Part { name: "join", run: join::run, switches: &[], options: &["-o"] },
    Part { name: "holes", run: holes::run, switches: &[], options: &[] },
    Part {
        name: "request",
        run: request::run,
        switches: &["--start"],
        options: &["--from", "--to", "--bit7", "--number", "-o"],
    },
    Part { name: "show", run: show::run, switches: &[], options: &[] },
    Part { name: "save", run: save::run, switches: &["--body"], options: &["-o"] },
    Part { name: "list", run: list::run, switches: &[], options: &[] },
];

/// Runs the part of the command that the first word names.
pub fn run(words: Vec<OsString>, out: &mut Out<'_>) -> End {
    let mut rest = words.into_iter();
    let name = match rest.next() {
        None => return Err(Failure::Trouble(format!("what shall be done?\n\n{}", help::SHORT))),
        Some(word) => word,
    };
    let words: Vec<OsString> = rest.collect();
    if name == "help" || name == "--help" || name == "-h" {
        return help::asked(words, out);
    }
    if name == "--version" || name == "-V" {
        return help::version(out);
    }
    let part = PARTS
        .iter()
        .find(|part| name == part.name)
        .ok_or_else(|| Failure::Trouble(format!("there is no `{}`\n\n{}", shown(&name), help::SHORT)))?;
    let words = Words::new(words, part.switches, part.options)?;
    if words.asks_for_help() {
        return help::of(part.name, out);
    }
    (part.run)(words, out)
}

#[cfg(test)]
mod tests {
    use super::*;
    use std::io::{self, Write};
    use std::path::PathBuf;

    // A writer that notes whether a file is there as each line is written.
    struct Watching {
        file: PathBuf,
        lines: Vec<(String, bool)>,
    }

    impl Write for Watching {
        fn write(&mut self, bytes: &[u8]) -> io::Result<usize> {
            self.lines.push((String::from_utf8_lossy(bytes).into_owned(), self.file.exists()));
            Ok(bytes.len())
        }

        fn flush(&mut self) -> io::Result<()> {
            Ok(())
        }
    }

    #[test]
    fn the_page_of_a_part_names_every_option() {
        for part in PARTS {
            let mut page = Vec::new();
            help::of(part.name, &mut Out::to(&mut page)).expect("a page");
            let page = String::from_utf8(page).expect("a text");
            for option in part.switches.iter().chain(part.options) {
                let mut words = page.split(|c: char| !c.is_alphanumeric() && c != '-');
                assert!(words.any(|word| word == *option), "{}: {option}", part.name);
            }
        }
    }

    #[test]
    fn a_line_is_written_before_the_next_work_is_done() {
        let folder = std::env::temp_dir().join(format!("thoweldeck-lines-{}", std::process::id()));
        std::fs::create_dir_all(&folder).expect("a folder");
        let file = folder.join("a.record");
        let frame = concat!(env!("CARGO_MANIFEST_DIR"), "/samples/survey/first/01.frame");
        let words = ["take".into(), file.clone().into_os_string(), frame.into()];
        let mut watching = Watching { file, lines: Vec::new() };
        let mut out = Out::to(&mut watching);
        assert_eq!(run(words.to_vec(), &mut out).expect("it is taken"), Ended::Well);
        let seen =
            |text: &str, lines: &[(String, bool)]| lines.iter().find(|line| line.0.contains(text)).map(|line| line.1);
        assert_eq!(seen("a new record", &watching.lines), Some(false), "{:?}", watching.lines);
        assert_eq!(seen("bytes held", &watching.lines), Some(true), "{:?}", watching.lines);
        std::fs::remove_dir_all(&folder).expect("the folder goes");
    }
}
