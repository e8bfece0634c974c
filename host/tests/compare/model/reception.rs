//! The reception: opening, taking in a piece, joining, and its holes
//! (01, Reception).

use super::{frame, refuse_if, Answer};

/// The largest L.
pub const LARGEST: u32 = 32_768;

/// What each bit of a map byte is worth, counted from the low end.
const WORTHS: [u8; 8] = [1, 2, 4, 8, 16, 32, 64, 128];

/// Whether L is 1 to 32,768.
pub fn length_is_right(length: u32) -> bool {
    (1..=LARGEST).contains(&length)
}

/// The bytes of a map: ceil(L/8).
pub fn map_size(length: u32) -> usize {
    let whole = length / 8;
    let rest = length % 8;
    (if rest > 0 { whole + 1 } else { whole }) as usize
}

/// Whether the map is long enough for L.
pub fn map_fits(length: u32, map: &[u8]) -> bool {
    map.len() >= map_size(length)
}

/// Whether the buffer is long enough for L.
pub fn buffer_fits(length: u32, buffer: &[u8]) -> bool {
    buffer.len() >= length as usize
}

/// The eight positions of a map byte, counted from the low end.
fn eight_positions(byte: u8) -> [bool; 8] {
    WORTHS.map(|worth| byte & worth != 0)
}

/// For each position below L, whether it is held; the list ends where the map
/// ends.
pub fn positions(length: u32, map: &[u8]) -> Vec<bool> {
    let used = map.iter().take(map_size(length));
    let mut list: Vec<bool> = used.flat_map(|&byte| eight_positions(byte)).collect();
    list.truncate(length as usize);
    list
}

/// Whether a position is held: it lies below L, the map has it, and its bit is
/// set.
pub fn is_held(length: u32, map: &[u8], position: u32) -> bool {
    if position >= length {
        return false;
    }
    match map.get((position / 8) as usize) {
        Some(&byte) => eight_positions(byte)[(position % 8) as usize],
        None => false,
    }
}

/// How many positions are held.
pub fn count_held(length: u32, map: &[u8]) -> u32 {
    let held = positions(length, map).into_iter().filter(|&held| held);
    held.count() as u32
}

/// Sets the bit of a position, which the map has; no other bit changes.
fn set_held(map: &mut [u8], position: usize) {
    let bit = position % 8;
    let byte = &mut map[position / 8];
    if !eight_positions(*byte)[bit] {
        *byte += WORTHS[bit];
    }
}

/// Opens a reception: clears the map and the buffer.
pub fn open(length: u32, map: &mut [u8], buffer: &mut [u8]) -> Answer<()> {
    // 7: L not 1 to 32,768.
    refuse_if(!length_is_right(length), 7)?;
    // 12: lent space too short.
    refuse_if(!map_fits(length, map) || !buffer_fits(length, buffer), 12)?;
    map[..map_size(length)].fill(0);
    buffer[..length as usize].fill(0);
    Ok(())
}

/// Takes in a piece and answers the count of newly held positions.
pub fn take(number: u32, length: u32, map: &mut [u8], buffer: &mut [u8], frame: &[u8]) -> Answer<u32> {
    // The frame's reasons.
    let piece = frame::piece(frame)?;
    // 7: L not 1 to 32,768.
    refuse_if(!length_is_right(length), 7)?;
    // 12: lent space too short.
    refuse_if(!map_fits(length, map) || !buffer_fits(length, buffer), 12)?;
    // 9: number differs.
    refuse_if(piece.number != number, 9)?;
    // 10: piece ends beyond L.
    let end = u64::from(piece.offset) + piece.size as u64;
    refuse_if(end > u64::from(length), 10)?;
    // 11: a held byte differs.
    let data = &frame[piece.start..piece.start + piece.size];
    let places = piece.offset..piece.offset + piece.size as u32;
    let differs = |(position, &byte): (u32, &u8)| is_held(length, map, position) && buffer[position as usize] != byte;
    refuse_if(places.clone().zip(data).any(differs), 11)?;
    let mut new = 0;
    for (position, &byte) in places.zip(data) {
        if !is_held(length, map, position) {
            new += 1;
        }
        set_held(map, position as usize);
        buffer[position as usize] = byte;
    }
    Ok(new)
}

/// Joins a second reception into the first and answers the count of newly held
/// positions of the first.
#[allow(clippy::too_many_arguments)]
pub fn join(
    number: u32,
    length: u32,
    map: &mut [u8],
    buffer: &mut [u8],
    second_number: u32,
    second_length: u32,
    second_map: &[u8],
    second_buffer: &[u8],
) -> Answer<u32> {
    // 7: L of either not 1 to 32,768.
    refuse_if(!length_is_right(length), 7)?;
    refuse_if(!length_is_right(second_length), 7)?;
    // 12: lent space of either too short.
    refuse_if(!map_fits(length, map) || !buffer_fits(length, buffer), 12)?;
    refuse_if(!map_fits(second_length, second_map), 12)?;
    refuse_if(!buffer_fits(second_length, second_buffer), 12)?;
    // 9: number or length differs.
    refuse_if(number != second_number || length != second_length, 9)?;
    // 11: a held byte differs.
    let first_held = positions(length, map);
    let second_held = positions(length, second_map);
    let differs = |p: usize| first_held[p] && second_held[p] && buffer[p] != second_buffer[p];
    refuse_if((0..length as usize).any(differs), 11)?;
    let mut new = 0;
    for position in 0..length as usize {
        if second_held[position] && !first_held[position] {
            buffer[position] = second_buffer[position];
            set_held(map, position);
            new += 1;
        }
    }
    Ok(new)
}

/// Start and length of every hole, ascending: the runs of unheld positions
/// that lie between the held ones.
pub fn holes(length: u32, map: &[u8]) -> Vec<(u32, u32)> {
    let mut list = Vec::new();
    let mut start = 0;
    for run in positions(length, map).split(|&held| held) {
        if !run.is_empty() {
            list.push((start as u32, run.len() as u32));
        }
        // The run, and the held position that ends it.
        start += run.len() + 1;
    }
    list
}

/// Answers start and length of the first hole that starts at the place or
/// later.
pub fn list(length: u32, map: &[u8], place: u32) -> Answer<(u32, u32)> {
    // 7: L not 1 to 32,768.
    refuse_if(!length_is_right(length), 7)?;
    // 12: lent space too short.
    refuse_if(!map_fits(length, map), 12)?;
    // 15: no hole starts at the place or later.
    let mut later = holes(length, map).into_iter().filter(|hole| hole.0 >= place);
    later.next().ok_or(15)
}
