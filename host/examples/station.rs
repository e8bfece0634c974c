//! A station in a few lines: it takes in the frames that it is given, and asks for what is missing.
use thoweldeck::{Address, Entry, Reason, Reception};

/// Takes a frame in and says what happened.
fn hear(reception: &mut Reception, frame: &[u8]) {
    match reception.take(frame) {
        Ok(0) => println!("a repeat"),
        Ok(new) => println!("{new} bytes more, {} in all", reception.held()),
        // everybody's files come down on one frequency
        Err(Reason::OtherFile) => println!("another file's piece"),
        Err(reason) => println!("refused, {reason}"),
    }
}

fn main() -> Result<(), Box<dyn std::error::Error>> {
    let mut frames = std::env::args_os().skip(1).map(std::fs::read);
    let entry = frames.next().ok_or("a directory entry and frames are wanted")??;
    let entry = Entry::read(&entry)?;
    let mut reception = Reception::open(entry.number, entry.header.length)?;
    for frame in frames {
        hear(&mut reception, &frame?);
    }
    for hole in reception.holes() {
        println!("missing: {} bytes from {} on", hole.length, hole.start);
    }
    let (satellite, station): (Address, Address) = ("UOSAT5-11".parse()?, "VA3SFL-0".parse()?);
    for request in reception.requests(satellite, station) {
        println!("to be sent: a request of {} bytes", request.len());
    }
    Ok(())
}
