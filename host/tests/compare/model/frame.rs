//! Frames: what each begins with, the file piece and the directory entry
//! (01, Frame).

use super::address::{self, Role};
use super::numbers::number;
use super::{check, header, refuse_if, Address, Answer, Entry, Piece};

/// Two addresses, control and protocol.
pub const BEGINNING: usize = 16;
pub const CONTROL: u8 = 0x03;
pub const FILE: u8 = 0xBB;
pub const DIRECTORY: u8 = 0xBD;

/// The fields of a file piece before its data, and the check behind them.
const PIECE_FIELDS: usize = 9;
const CHECK: usize = 2;
/// The fields of a directory entry before its header.
const ENTRY_FIELDS: usize = 17;

/// What a frame of any kind gives.
pub struct Parts<'a> {
    pub destination: Address,
    pub source: Address,
    pub information: &'a [u8],
}

/// Reads what all frames share: the reasons 1, 2, 3, 4, 7, 1, with which the
/// orders of all frames begin (01, Numbered reasons).
pub fn parts(frame: &[u8], protocol: u8, shortest: usize) -> Answer<Parts<'_>> {
    // 1: frame below 16 bytes.
    refuse_if(frame.len() < BEGINNING, 1)?;
    // 2: address malformed.
    let destination = address::read(&frame[0..7], Role::Destination).ok_or(2)?;
    let source = address::read(&frame[7..14], Role::Source).ok_or(2)?;
    // 3: control not 0x03.
    refuse_if(frame[14] != CONTROL, 3)?;
    // 4: protocol not the one this operation reads.
    refuse_if(frame[15] != protocol, 4)?;
    let information = &frame[BEGINNING..];
    // 7: information over 255.
    refuse_if(information.len() > 255, 7)?;
    // 1: information too short.
    refuse_if(information.len() < shortest, 1)?;
    Ok(Parts { destination, source, information })
}

/// Reads a file piece.
pub fn piece(frame: &[u8]) -> Answer<Piece> {
    // 1, 2, 3, 4, 7, 1: what all frames share.
    let parts = parts(frame, FILE, PIECE_FIELDS + CHECK)?;
    let information = parts.information;
    // 6: check bytes differ.
    refuse_if(!check::is_right(information), 6)?;
    // 5: flags not exactly 0x02.
    refuse_if(information[0] != 0x02, 5)?;
    // 7: piece without data.
    let size = information.len() - PIECE_FIELDS - CHECK;
    refuse_if(size == 0, 7)?;
    Ok(Piece {
        destination: parts.destination,
        source: parts.source,
        number: number(&information[1..5]),
        kind: information[5],
        // Low 16 bits and then the high byte.
        offset: number(&information[6..8]) + u32::from(information[8]) * 65_536,
        start: BEGINNING + PIECE_FIELDS,
        size,
    })
}

/// Whether a bit of the flags is set.
fn has_bit(flags: u8, bit: u32) -> bool {
    u32::from(flags) / 2u32.pow(bit) % 2 == 1
}

/// Reads a directory entry.
pub fn entry(frame: &[u8]) -> Answer<Entry> {
    // 1, 2, 3, 4, 7, 1: what all frames share.
    let parts = parts(frame, DIRECTORY, ENTRY_FIELDS + CHECK)?;
    let information = parts.information;
    // 6: check bytes differ.
    refuse_if(!check::is_right(information), 6)?;
    // 5: bits 5 and 6 are free, the others 0.
    let flags = information[0];
    refuse_if([0, 1, 2, 3, 4, 7].iter().any(|&bit| has_bit(flags, bit)), 5)?;
    // 14: bit 5 must be set and the offset 0.
    let offset = number(&information[5..9]);
    refuse_if(!has_bit(flags, 5) || offset != 0, 14)?;
    // 8: file header breaks a rule; in a directory entry nothing follows it.
    let bytes = &information[ENTRY_FIELDS..information.len() - CHECK];
    let file_number = number(&information[1..5]);
    let (header, size) = header::read(bytes, file_number)?;
    refuse_if(size != bytes.len(), 8)?;
    Ok(Entry {
        destination: parts.destination,
        source: parts.source,
        flags,
        number: file_number,
        offset,
        old: number(&information[9..13]),
        new: number(&information[13..17]),
        start: BEGINNING + ENTRY_FIELDS,
        size,
        header,
    })
}
