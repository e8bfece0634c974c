//! What an accepted frame or record says, in a line.
use super::fields::Kind;
use crate::command::bytes::{counted, positions};
use crate::command::headers;
use crate::command::holes::summary;
use thoweldeck::{Asks, Entry, Piece, Reason, Reception, Request};

/// What an accepted frame or record says.
pub fn said(kind: Kind, bytes: &[u8]) -> Result<String, Reason> {
    match kind {
        Kind::Piece => Piece::read(bytes).map(|piece| piece_said(&piece)),
        Kind::Entry => Entry::read(bytes).map(|entry| entry_said(&entry)),
        Kind::Request => Request::read(bytes).map(|request| request_said(&request)),
        Kind::Record => Reception::load(bytes).map(|reception| summary(&reception)),
    }
}

// What a piece says.
fn piece_said(piece: &Piece<'_>) -> String {
    let (start, size) = (u64::from(piece.offset), piece.bytes.len());
    let positions = positions(start, start + size as u64);
    format!("{} of file {}, {positions}", counted(size, "byte"), piece.number)
}

// What a directory entry says.
fn entry_said(entry: &Entry<'_>) -> String {
    let length = counted(entry.header.length as usize, "byte");
    format!("file {}, `{}`, has {length}", entry.number, headers::name(&entry.header))
}

// What a request says.
fn request_said(request: &Request) -> String {
    match &request.asks {
        Asks::Start => format!("asks for the start of file {}", request.number),
        Asks::Holes(holes) => {
            let missing: u32 = holes.iter().map(|hole| hole.length).sum();
            let (missing, holes) = (counted(missing as usize, "byte"), counted(holes.len(), "hole"));
            format!("asks for {missing} of file {}, in {holes}", request.number)
        }
    }
}

/// What a piece would bring to a reception, which stays as it is.
pub fn taken(frame: &[u8], reception: &Reception) -> Result<String, Reason> {
    let new = reception.clone().take(frame)?;
    let piece = Piece::read(frame)?;
    let brings = if new == 0 { "a repeat, nothing new".to_string() } else { format!("{new} new") };
    Ok(format!("{}: {brings}", piece_said(&piece)))
}
