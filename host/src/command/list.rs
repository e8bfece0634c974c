//! `thoweldeck list FOLDER`: the records of a folder, a line each.
use super::causes::Cause;
use super::files::{self, Source};
use super::headers;
use super::holes::bar;
use super::names::shown;
use super::words::Words;
use super::{End, Ended, Failure, Out};
use std::fs;
use std::os::unix::ffi::OsStrExt;
use std::path::{Path, PathBuf};
use thoweldeck::{Reception, LONGEST};

// How many characters a picture has at most.
const WIDTH: u32 = 32;
// No record is longer: number and length in 14 bytes, the map and the bytes of the longest file, each behind 3.
const LONGEST_RECORD: u64 = 20 + (LONGEST / 8 + LONGEST) as u64;

pub fn run(words: Words, out: &mut Out<'_>) -> End {
    let [folder] = words.exactly(["a folder"])?;
    let found = records(&folder)?;
    let width = found.iter().map(|one| one.name.chars().count()).max().unwrap_or(0).max("record".len());
    let mut ended = Ended::Well;
    if found.is_empty() {
        out.line(format!("{}: has no records", shown(&folder)));
    } else {
        out.line(format!("{:width$}        file  name          length   held  holes  # held, . missing", "record"));
    }
    for one in &found {
        match &one.reception {
            Ok(reception) => out.line(format!("{:width$}  {}", one.name, row(reception))),
            Err(line) => {
                out.line(format!("{:width$}  {line}", one.name));
                ended = Ended::Partly;
            }
        }
    }
    Ok(ended)
}

// A file that is a record, or should be one.
struct Found {
    name: String,
    reception: Result<Reception, String>,
}

// The records of a folder, by their names: every file that is one, and every file whose name ends in `.record`, with the
// reason where it is none. Other files are passed over, and so are hidden ones, which may be what a killed run has left.
fn records(folder: &Path) -> Result<Vec<Found>, Failure> {
    let trouble = |error| files::trouble(folder, "cannot be read", &error);
    let mut paths: Vec<PathBuf> = Vec::new();
    for entry in fs::read_dir(folder).map_err(trouble)? {
        paths.push(entry.map_err(trouble)?.path());
    }
    paths.sort();
    let is_hidden = |path: &Path| path.file_name().map_or(false, |name| name.as_bytes().starts_with(b"."));
    Ok(paths.iter().filter(|path| !path.is_dir() && !is_hidden(path)).filter_map(|path| found(path)).collect())
}

fn found(path: &Path) -> Option<Found> {
    let is_named = path.extension().map_or(false, |extension| extension == "record");
    let (is_file, size) = fs::metadata(path).map_or((true, 0), |data| (data.is_file(), data.len()));
    // what is longer than any record, or no plain file, is not read unless its name says that it is a record
    if !is_named && (!is_file || size > LONGEST_RECORD) {
        return None;
    }
    let reception = if is_file { loaded(path) } else { Err("is no plain file".to_string()) };
    if reception.is_err() && !is_named {
        return None;
    }
    Some(Found { name: shown(path.file_name()?), reception })
}

// The reception in a record's file, or why there is none.
fn loaded(path: &Path) -> Result<Reception, String> {
    let bytes = Source::File(path.to_path_buf()).bytes().map_err(|error| format!("cannot be read: {error}"))?;
    Reception::load(&bytes).map_err(|_| format!("refused, {}", Cause::of_record(&bytes)))
}

// A reception in a line: its file's number, name, length, how much of it is held, its holes and a picture.
fn row(reception: &Reception) -> String {
    let name = headers::of(reception).map_or("-".to_string(), |header| headers::name(&header));
    let (number, length, holes) = (reception.number(), reception.length(), reception.holes().count());
    format!("{number:10}  {name:12}  {length:6}  {:>5}  {holes:5}  [{}]", percent(reception), bar(reception, WIDTH))
}

// How much is held, in hundredths: 100% only where all is, and 0% only where nothing is.
fn percent(reception: &Reception) -> String {
    match reception.held() * 100 / reception.length() {
        0 if reception.held() > 0 => "<1%".to_string(),
        percent => format!("{percent}%"),
    }
}
