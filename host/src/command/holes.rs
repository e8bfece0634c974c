//! `thoweldeck holes RECORD`: what is missing, as a list and as a picture.
use super::bytes::{counted, positions};
use super::files::Source;
use super::words::Words;
use super::{End, Ended, Out};
use thoweldeck::{Hole, Reception};

// How many characters a picture has at most.
const WIDTH: u32 = 64;

pub fn run(words: Words, out: &mut Out<'_>) -> End {
    let [path] = words.exactly(["a record"])?;
    let source = Source::of(&path);
    let reception = source.record()?;
    out.line(format!("{source}: {}", summary(&reception)));
    let holes: Vec<Hole> = reception.holes().collect();
    if !holes.is_empty() {
        out.line("\n start  length  missing");
    }
    for hole in &holes {
        out.line(format!(
            "{:6}  {:6}  {}",
            hole.start,
            hole.length,
            positions(u64::from(hole.start), u64::from(hole.end()))
        ));
    }
    out.line(format!("\n[{}]", bar(&reception, WIDTH)));
    out.line(legend(reception.length()));
    Ok(Ended::Well)
}

/// A reception in a line: its file, how much is held, and how many holes there are.
pub fn summary(reception: &Reception) -> String {
    let (number, length, held) = (reception.number(), reception.length(), reception.held());
    match reception.holes().count() {
        0 => format!("file {number}, {}, all held: the file is complete", counted(length as usize, "byte")),
        holes => {
            format!("file {number}, {held} of {} held, {}", counted(length as usize, "byte"), counted(holes, "hole"))
        }
    }
}

// How many positions a character of a bar stands for that is at most so wide.
fn each(length: u32, width: u32) -> u32 {
    (length + width - 1) / width
}

/// The map as a bar of at most so many characters.
pub fn bar(reception: &Reception, width: u32) -> String {
    let each = each(reception.length(), width);
    let mut bar = String::new();
    let mut from = 0;
    while from < reception.length() {
        let to = reception.length().min(from + each);
        bar.push(character(reception, from, to));
        from = to;
    }
    bar
}

// The character for the positions from one up to another.
fn character(reception: &Reception, from: u32, to: u32) -> char {
    let held = (from..to).filter(|position| reception.is_held(*position)).count() as u32;
    if held == to - from {
        '#'
    } else if held == 0 {
        '.'
    } else {
        '+'
    }
}

fn legend(length: u32) -> String {
    let each = each(length, WIDTH);
    let last = length - (length - 1) / each * each;
    if each == 1 {
        "each character is a position: # held, . missing".to_string()
    } else if last == each {
        format!("each character is {each} positions: # held, . missing, + some of each")
    } else {
        format!("each character is {each} positions, the last one {last}: # held, . missing, + some of each")
    }
}
