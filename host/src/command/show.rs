//! `thoweldeck show RECORD`: the bytes that are held, and where they are missing.
use super::files::Source;
use super::words::Words;
use super::{bytes, End, Ended, Out};
use std::fmt::Write;
use thoweldeck::Reception;

// How many positions a line has.
const LINE: u32 = 16;

pub fn run(words: Words, out: &mut Out<'_>) -> End {
    let [path] = words.exactly(["a record"])?;
    let source = Source::of(&path);
    let reception = source.record()?;
    out.line(format!("{source}: {}\n", super::holes::summary(&reception)));
    let mut from = 0;
    while from < reception.length() {
        let end = missing_lines(&reception, from);
        if end > from {
            let missing = bytes::counted((end - from) as usize, "byte");
            out.line(format!("{from:6}  -- {missing} missing, up to position {}", end - 1));
            from = end;
        } else {
            let to = reception.length().min(from + LINE);
            out.line(format!("{from:6}  {}", line(&reception, from, to)));
            from = to;
        }
    }
    Ok(Ended::Well)
}

// The end of the whole lines from a position on in which nothing is held.
fn missing_lines(reception: &Reception, from: u32) -> u32 {
    let first_held = (from..reception.length()).find(|position| reception.is_held(*position));
    match first_held {
        None => reception.length(),
        Some(position) => position - (position - from) % LINE,
    }
}

// A line of positions: each byte in hexadecimal, then as a character, and `--` and a blank where it is missing.
fn line(reception: &Reception, from: u32, to: u32) -> String {
    let mut pairs = String::new();
    let mut characters = String::new();
    for position in from..to {
        if reception.is_held(position) {
            let byte = reception.buffer()[position as usize];
            let _ = write!(pairs, "{byte:02X} ");
            characters.push(bytes::character(byte));
        } else {
            pairs.push_str("-- ");
            characters.push(' ');
        }
    }
    format!("{pairs:48} |{characters}|")
}
