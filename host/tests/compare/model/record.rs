//! The record: saving and loading a reception (01, Record).

use super::numbers::{bytes_of, number};
use super::reception::{buffer_fits, length_is_right, map_fits, map_size, positions};
use super::{refuse_if, Answer};

/// A field: a one-byte tag, a two-byte length, and data.
fn field(tag: u8, data: &[u8]) -> Vec<u8> {
    let mut bytes = vec![tag];
    bytes.extend(bytes_of(data.len() as u32, 2));
    bytes.extend_from_slice(data);
    bytes
}

/// The map with its spare bits zero: made anew from the positions below L.
fn clean_map(held: &[bool]) -> Vec<u8> {
    let byte = |eight: &[bool]| {
        let from_the_top = eight.iter().rev();
        from_the_top.fold(0, |byte, &held| byte * 2 + u8::from(held))
    };
    held.chunks(8).map(byte).collect()
}

/// The buffer with its unheld bytes zero.
fn clean_buffer(held: &[bool], buffer: &[u8]) -> Vec<u8> {
    let byte = |(&held, &byte): (&bool, &u8)| if held { byte } else { 0 };
    held.iter().zip(buffer).map(byte).collect()
}

/// Saves a reception as a record and answers the record's size.
pub fn save(number: u32, length: u32, map: &[u8], buffer: &[u8], target: &mut [u8]) -> Answer<usize> {
    // 7: L not 1 to 32,768.
    refuse_if(!length_is_right(length), 7)?;
    // 12: lent space too short.
    refuse_if(!map_fits(length, map) || !buffer_fits(length, buffer), 12)?;
    let held = positions(length, map);
    let mut record = field(0x01, &bytes_of(number, 4));
    record.extend(field(0x02, &bytes_of(length, 4)));
    record.extend(field(0x03, &clean_map(&held)));
    record.extend(field(0x04, &clean_buffer(&held, buffer)));
    refuse_if(target.len() < record.len(), 12)?;
    target[..record.len()].copy_from_slice(&record);
    Ok(record.len())
}

/// The data of the field with this tag that the bytes begin with, and the
/// bytes after it.
fn next_field(bytes: &[u8], tag: u8) -> Option<(&[u8], &[u8])> {
    let head = bytes.get(..3)?;
    let end = 3 + number(&head[1..3]) as usize;
    let data = bytes.get(3..end)?;
    if head[0] != tag {
        return None;
    }
    Some((data, &bytes[end..]))
}

/// What a record says.
struct Record<'a> {
    number: u32,
    length: u32,
    map: &'a [u8],
    buffer: &'a [u8],
}

/// The four fields in their order, with nothing after them, each as long as it
/// must be, and L 1 to 32,768.
fn fields(saved: &[u8]) -> Option<Record<'_>> {
    let (number_data, rest) = next_field(saved, 0x01)?;
    let (length_data, rest) = next_field(rest, 0x02)?;
    let (map, rest) = next_field(rest, 0x03)?;
    let (buffer, rest) = next_field(rest, 0x04)?;
    let length = number(length_data);
    let right = rest.is_empty()
        && number_data.len() == 4
        && length_data.len() == 4
        && length_is_right(length)
        && map.len() == map_size(length)
        && buffer.len() == length as usize;
    if !right {
        return None;
    }
    Some(Record { number: number(number_data), length, map, buffer })
}

/// Whether spare bits and unheld bytes are zero.
fn is_clean(record: &Record) -> bool {
    let all = positions(8 * record.map.len() as u32, record.map);
    let spare = &all[record.length as usize..];
    let held = positions(record.length, record.map);
    let zero = |(&held, &byte): (&bool, &u8)| held || byte == 0;
    !spare.contains(&true) && held.iter().zip(record.buffer).all(zero)
}

/// Loads a reception from a record and answers its number and length.
pub fn load(saved: &[u8], map: &mut [u8], buffer: &mut [u8]) -> Answer<(u32, u32)> {
    // 13: record malformed, L out of range included.
    let record = fields(saved).ok_or(13)?;
    refuse_if(!is_clean(&record), 13)?;
    // 12: lent space too short.
    let length = record.length;
    refuse_if(!map_fits(length, map) || !buffer_fits(length, buffer), 12)?;
    map[..record.map.len()].copy_from_slice(record.map);
    buffer[..record.buffer.len()].copy_from_slice(record.buffer);
    Ok((record.number, length))
}
