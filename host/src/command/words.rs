//! The words of a command: what stands by itself, and options with their values.
use super::names::shown;
use super::Failure;
use std::ffi::{OsStr, OsString};
use std::os::unix::ffi::OsStrExt;
use std::path::PathBuf;
use std::str::FromStr;

/// The words of a command, taken apart.
#[derive(Debug)]
pub struct Words {
    alone: Vec<OsString>,
    switches: Vec<&'static str>,
    options: Vec<(&'static str, OsString)>,
    asks_for_help: bool,
}

impl Words {
    /// Takes words apart, where these switches are known, and these options, each with a value. Behind `--` every word
    /// stands by itself.
    pub fn new(words: Vec<OsString>, switches: &[&'static str], known: &[&'static str]) -> Result<Words, Failure> {
        let (alone, options) = (Vec::new(), Vec::new());
        let mut taken = Words { alone, switches: Vec::new(), options, asks_for_help: false };
        let mut rest = words.into_iter();
        while let Some(word) = rest.next() {
            if word == "--" {
                taken.alone.extend(rest);
                break;
            }
            if word == "--help" || word == "-h" {
                taken.asks_for_help = true;
                continue;
            }
            if let Some(switch) = switches.iter().find(|switch| word == **switch) {
                taken.switches.push(switch);
                continue;
            }
            let (name, value) = apart(&word);
            match known.iter().find(|option| name == **option) {
                Some(option) => taken.add(option, value.or_else(|| rest.next()))?,
                None if is_option(&word) => return Err(trouble(format!("there is no option `{}`", shown(&word)))),
                None => taken.alone.push(word),
            }
        }
        Ok(taken)
    }

    fn add(&mut self, option: &'static str, value: Option<OsString>) -> Result<(), Failure> {
        let value = value.ok_or_else(|| trouble(format!("`{option}` is to be followed by its value")))?;
        if self.value(option).is_some() {
            return Err(trouble(format!("`{option}` is given twice")));
        }
        self.options.push((option, value));
        Ok(())
    }

    /// Whether `--help` is there.
    pub fn asks_for_help(&self) -> bool {
        self.asks_for_help
    }

    /// Whether a switch is there.
    pub fn has(&self, switch: &str) -> bool {
        self.switches.contains(&switch)
    }

    fn value(&self, option: &str) -> Option<&OsStr> {
        self.options.iter().find(|(name, _)| *name == option).map(|(_, value)| value.as_os_str())
    }

    /// Whether no word stands by itself.
    pub fn none(&self) -> bool {
        self.alone.is_empty()
    }

    /// The words that stand by themselves, where there are as many as names.
    pub fn exactly<const N: usize>(&self, names: [&str; N]) -> Result<[PathBuf; N], Failure> {
        let paths: Vec<PathBuf> = self.alone.iter().map(PathBuf::from).collect();
        <[PathBuf; N]>::try_from(paths)
            .map_err(|given| trouble(format!("{} {} wanted, and {} given", names.join(" and "), are(N), given.len())))
    }

    /// The first word that stands by itself, and all others, of which there is one at least.
    pub fn first_and_others(&self, first: &str, others: &str) -> Result<(PathBuf, Vec<PathBuf>), Failure> {
        match self.alone.split_first() {
            Some((word, rest)) if !rest.is_empty() => {
                Ok((PathBuf::from(word), rest.iter().map(PathBuf::from).collect()))
            }
            _ => Err(trouble(format!("{first} and {others} are wanted"))),
        }
    }

    /// The path that an option gives, which must be there.
    pub fn path(&self, option: &str) -> Result<PathBuf, Failure> {
        self.value(option).map(PathBuf::from).ok_or_else(|| trouble(format!("`{option}` is wanted")))
    }

    /// What an option's text says, where the option is there.
    pub fn said<T: FromStr>(&self, option: &str, what: &str) -> Result<Option<T>, Failure> {
        match self.value(option) {
            None => Ok(None),
            Some(value) => match value.to_string_lossy().parse() {
                Ok(said) => Ok(Some(said)),
                Err(_) => Err(trouble(format!("`{option} {}` is not {what}", shown(value)))),
            },
        }
    }

    /// The text of an option, which must be there.
    pub fn text(&self, option: &str) -> Result<String, Failure> {
        let text = self.value(option).map(|value| value.to_string_lossy().into_owned());
        text.ok_or_else(|| trouble(format!("`{option}` is wanted")))
    }
}

fn are(count: usize) -> &'static str {
    if count == 1 {
        "is"
    } else {
        "are"
    }
}

// The name of an option and the value that stands in the same word, as `--length=20` has them.
fn apart(word: &OsStr) -> (&OsStr, Option<OsString>) {
    let bytes = word.as_bytes();
    match bytes.iter().position(|byte| *byte == b'=') {
        Some(place) if bytes.starts_with(b"--") => {
            (OsStr::from_bytes(&bytes[..place]), Some(OsStr::from_bytes(&bytes[place + 1..]).to_os_string()))
        }
        _ => (word, None),
    }
}

// A word that begins as an option does. `-` alone is a word.
fn is_option(word: &OsStr) -> bool {
    let text = word.to_string_lossy();
    text.starts_with('-') && text.len() > 1
}

fn trouble(line: String) -> Failure {
    Failure::Trouble(format!("{line}; `thoweldeck --help` says how it is used"))
}
