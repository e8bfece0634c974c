//! `thoweldeck request RECORD --from CALL --to CALL -o DIR`: the frames that ask for what is missing, or for the start.
use super::bytes::counted;
use super::causes::Cause;
use super::explain::{said, Kind};
use super::names::{escaped, shown};
use super::words::Words;
use super::{files, End, Ended, Failure, Out};
use std::fs;
use std::path::Path;
use thoweldeck::{Address, Request};

pub fn run(words: Words, out: &mut Out<'_>) -> End {
    let (from, to) = addresses(&words)?;
    let folder = words.path("-o")?;
    let frames = if words.has("--start") {
        vec![Request::start(to, from, file_to_start(&words)?)]
    } else {
        let [path] = words.exactly(["a record"])?;
        if words.said::<u32>("--number", "the number of a file")?.is_some() {
            return Err(Failure::Trouble("`--number` stands with `--start` only: a record has its number".to_string()));
        }
        let reception = files::record(&path)?;
        out.line(format!("{}: {}", shown(&path), super::holes::summary(&reception)));
        reception.requests(to, from).collect()
    };
    if frames.is_empty() {
        out.line("nothing is missing, so there is nothing to ask for");
        return Ok(Ended::Well);
    }
    make_folder(&folder)?;
    for (index, frame) in frames.iter().enumerate() {
        let name = folder.join(format!("request-{:03}.frame", index + 1));
        files::write_another(&name, frame)?.iter().for_each(|note| out.line(note));
        let asks = said(Kind::Request, frame).map_err(|reason| Failure::Refused(shown(&name), Cause::from(reason)))?;
        out.line(format!("{}: {}, {from} to {to}, {asks}", shown(&name), counted(frame.len(), "byte")));
    }
    Ok(Ended::Well)
}

// The file whose start is asked for: a record's, or, where there is no record yet, the one with a number.
fn file_to_start(words: &Words) -> Result<u32, Failure> {
    match words.said("--number", "the number of a file")? {
        None => {
            let [path] = words.exactly(["a record, or `--number`,"])?;
            Ok(files::record(&path)?.number())
        }
        Some(number) if words.none() => Ok(number),
        Some(_) => Err(Failure::Trouble("a record and `--number` both say which file: give one of them".to_string())),
    }
}

// Who asks and who is asked, each with bit 7 where its own text says so or `--bit7` does. Refuses 2.
fn addresses(words: &Words) -> Result<(Address, Address), Failure> {
    let (from, to) = (address(words, "--from")?, address(words, "--to")?);
    let (source, destination) = match words.text("--bit7").as_deref() {
        Err(_) => (false, false),
        Ok("source") => (true, false),
        Ok("destination") => (false, true),
        Ok("both") => (true, true),
        Ok(word) => {
            let line = format!("`--bit7 {}` is none of destination, source and both", escaped(word));
            return Err(Failure::Trouble(line));
        }
    };
    Ok((from.with_bit7(from.bit7() || source), to.with_bit7(to.bit7() || destination)))
}

// The address that an option gives. Refuses 2.
fn address(words: &Words, option: &str) -> Result<Address, Failure> {
    let text = words.text(option)?;
    text.parse().map_err(|_| Failure::Refused(format!("`{option} {}`", escaped(&text)), Cause::of_call(&text)))
}

// The folder for the frames. One that has requests already is left alone: what was asked for before would be sent
// again with them.
fn make_folder(folder: &Path) -> Result<(), Failure> {
    fs::create_dir_all(folder).map_err(|error| files::trouble(folder, "cannot be made", &error))?;
    let entries = fs::read_dir(folder).map_err(|error| files::trouble(folder, "cannot be read", &error))?;
    for entry in entries.flatten() {
        let name = entry.file_name();
        if name.to_string_lossy().starts_with("request-") {
            let line = format!("{}: has requests already ({}); name another folder", shown(folder), shown(&name));
            return Err(Failure::Stopped(line));
        }
    }
    Ok(())
}
