//! The fill request, read and written (01, Fill request).

use super::address::{self, Role};
use super::numbers::{bytes_of, number};
use super::reception::{holes, length_is_right, map_fits, LARGEST};
use super::{frame, refuse_if, Address, Answer, Request};

/// Flags that ask for the start.
const START: u8 = 0x10;
/// Flags that list holes.
const HOLES: u8 = 0x11;
const BLOCK_SIZE: u32 = 244;
/// Flags, file number and block size.
const FIELDS: usize = 7;
/// Offset and length of a hole.
const HOLE: usize = 5;
const MOST_HOLES: usize = 49;

/// Whether this many bytes of holes go with the flags: whole holes, none for
/// the start, 1 to 49 for a list.
fn hole_bytes_are_right(flags: u8, count: usize) -> bool {
    let holes = count / HOLE;
    let odd_bytes = count - holes * HOLE;
    let right_count = if flags == START { holes == 0 } else { (1..=MOST_HOLES).contains(&holes) };
    odd_bytes == 0 && right_count
}

/// The holes in the bytes after the fields.
fn read_holes(bytes: &[u8]) -> Vec<(u32, u32)> {
    bytes.chunks_exact(HOLE).map(|hole| (number(&hole[0..3]), number(&hole[3..5]))).collect()
}

/// The first position after a hole.
fn end(hole: (u32, u32)) -> u64 {
    u64::from(hole.0) + u64::from(hole.1)
}

/// Whether each hole has at least 1 byte, none ends beyond 32,768, and they
/// ascend with at least one position between neighbours.
fn holes_are_right(holes: &[(u32, u32)]) -> bool {
    let filled = holes.iter().all(|&hole| hole.1 >= 1);
    let bounded = holes.iter().all(|&hole| end(hole) <= u64::from(LARGEST));
    let apart = holes.windows(2).all(|two| end(two[0]) < u64::from(two[1].0));
    filled && bounded && apart
}

/// Reads a fill request.
pub fn read_request(frame: &[u8]) -> Answer<Request> {
    // 1, 2, 3, 4, 7, 1: what all frames share.
    let parts = frame::parts(frame, frame::FILE, FIELDS)?;
    let (fields, rest) = parts.information.split_at(FIELDS);
    // 5: flags not allowed.
    let flags = fields[0];
    refuse_if(flags != START && flags != HOLES, 5)?;
    // 7: block size or hole count wrong, or odd bytes left.
    refuse_if(number(&fields[5..7]) != BLOCK_SIZE, 7)?;
    refuse_if(!hole_bytes_are_right(flags, rest.len()), 7)?;
    // 10: request hole breaks its rules.
    let holes = read_holes(rest);
    refuse_if(!holes_are_right(&holes), 10)?;
    Ok(Request { destination: parts.destination, source: parts.source, flags, number: number(&fields[1..5]), holes })
}

/// The whole frame of a request; a list of no holes asks for the start.
fn request_frame(destination: Address, source: Address, number: u32, holes: &[(u32, u32)]) -> Vec<u8> {
    let mut bytes = address::bytes_of(destination, Role::Destination);
    bytes.extend(address::bytes_of(source, Role::Source));
    bytes.extend([frame::CONTROL, frame::FILE]);
    bytes.push(if holes.is_empty() { START } else { HOLES });
    bytes.extend(bytes_of(number, 4));
    bytes.extend(bytes_of(BLOCK_SIZE, 2));
    for hole in holes {
        bytes.extend(bytes_of(hole.0, 3));
        bytes.extend(bytes_of(hole.1, 2));
    }
    bytes
}

/// Writes a request for the holes from a place, all of them up to 49, and
/// answers their count and the end of the last.
pub fn write_fill(
    destination: Address,
    source: Address,
    number: u32,
    length: u32,
    map: &[u8],
    place: u32,
    target: &mut [u8],
) -> Answer<(u32, u32)> {
    // 2: address malformed.
    refuse_if(!address::is_right(destination), 2)?;
    refuse_if(!address::is_right(source), 2)?;
    // 7: L not 1 to 32,768.
    refuse_if(!length_is_right(length), 7)?;
    // 12: the map too short.
    refuse_if(!map_fits(length, map), 12)?;
    // 15: no hole starts at the place or later.
    let later = holes(length, map).into_iter().filter(|hole| hole.0 >= place);
    let chosen: Vec<(u32, u32)> = later.take(MOST_HOLES).collect();
    let last = *chosen.last().ok_or(15)?;
    // 12: the target too short.
    let frame = request_frame(destination, source, number, &chosen);
    refuse_if(target.len() < frame.len(), 12)?;
    target[..frame.len()].copy_from_slice(&frame);
    Ok((chosen.len() as u32, last.0 + last.1))
}

/// Writes a request for the start.
pub fn write_start(destination: Address, source: Address, number: u32, target: &mut [u8]) -> Answer<()> {
    // 2: address malformed.
    refuse_if(!address::is_right(destination), 2)?;
    refuse_if(!address::is_right(source), 2)?;
    // 12: the target too short.
    let frame = request_frame(destination, source, number, &[]);
    refuse_if(target.len() < frame.len(), 12)?;
    target[..frame.len()].copy_from_slice(&frame);
    Ok(())
}
