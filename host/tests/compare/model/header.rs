//! The file header: its items as a list, and each rule over that list
//! (01, File header).

use super::numbers::{number, short_number};
use super::{refuse_if, Answer, Header};

/// An item: its id, its data, and where its data start in the header.
struct Item<'a> {
    id: u16,
    data: &'a [u8],
    start: usize,
}

/// Id and length of each mandatory item.
const MANDATORY: [(u16, usize); 11] = [
    (0x01, 4),
    (0x02, 8),
    (0x03, 3),
    (0x04, 4),
    (0x05, 4),
    (0x06, 4),
    (0x07, 1),
    (0x08, 1),
    (0x09, 2),
    (0x0A, 2),
    (0x0B, 2),
];

/// All items before the end item, and the header's size with AA 55 and the
/// end item. Nothing if AA 55 or the end item is missing, an item runs past
/// the bytes, or id 0 has another length than 0.
fn items(bytes: &[u8]) -> Option<(Vec<Item<'_>>, usize)> {
    if !bytes.starts_with(&[0xAA, 0x55]) {
        return None;
    }
    let mut list = Vec::new();
    let mut place = 2;
    loop {
        let head = bytes.get(place..place + 3)?;
        let id = short_number(&head[0..2]);
        let start = place + 3;
        let data = bytes.get(start..start + usize::from(head[2]))?;
        place = start + data.len();
        match (id, data.len()) {
            (0, 0) => return Some((list, place)),
            (0, _) => return None,
            _ => list.push(Item { id, data, start }),
        }
    }
}

/// The items of this id, in their order.
fn all_of<'a, 'b>(items: &'b [Item<'a>], id: u16) -> Vec<&'b Item<'a>> {
    items.iter().filter(|item| item.id == id).collect()
}

/// Rule: each mandatory item exactly once, with its length.
fn mandatory_items_once(items: &[Item]) -> bool {
    MANDATORY.iter().all(|&(id, length)| {
        let found = all_of(items, id);
        found.len() == 1 && found[0].data.len() == length
    })
}

/// Rule: item 12, 4 bytes, at most once.
fn upload_at_most_once(items: &[Item]) -> bool {
    let found = all_of(items, 0x12);
    found.len() <= 1 && found.iter().all(|item| item.data.len() == 4)
}

/// The data of the first item of this id.
fn data_of<'a>(items: &[Item<'a>], id: u16) -> Option<&'a [u8]> {
    items.iter().find(|item| item.id == id).map(|item| item.data)
}

/// The number that is the data of the first item of this id.
fn number_of(items: &[Item], id: u16) -> Option<u32> {
    data_of(items, id).map(number)
}

/// Rule: item 0A is the sum of all header bytes modulo 65,536, with its own
/// two data bytes taken as 0.
fn sum_agrees(header: &[u8], items: &[Item]) -> bool {
    let own: Vec<usize> =
        all_of(items, 0x0A).iter().flat_map(|item| item.start..item.start + item.data.len()).collect();
    let sum: u64 = (0..header.len()).filter(|place| !own.contains(place)).map(|place| u64::from(header[place])).sum();
    number_of(items, 0x0A).map(u64::from) == Some(sum % 65_536)
}

/// Rule: item 01 equals the frame's number.
fn number_agrees(items: &[Item], file_number: u32) -> bool {
    number_of(items, 0x01) == Some(file_number)
}

/// Rule: item 0B is at least the header's length and at most item 04.
fn body_place_agrees(items: &[Item], size: usize) -> bool {
    match (number_of(items, 0x0B), number_of(items, 0x04)) {
        (Some(body), Some(length)) => size as u64 <= u64::from(body) && body <= length,
        _ => false,
    }
}

/// The values of the items that are reported.
fn values(items: &[Item]) -> Option<Header> {
    Some(Header {
        name: <[u8; 8]>::try_from(data_of(items, 0x02)?).ok()?,
        extension: <[u8; 3]>::try_from(data_of(items, 0x03)?).ok()?,
        length: number_of(items, 0x04)?,
        created: number_of(items, 0x05)?,
        modified: number_of(items, 0x06)?,
        upset: *data_of(items, 0x07)?.first()?,
        kind: *data_of(items, 0x08)?.first()?,
        bodysum: short_number(data_of(items, 0x09)?),
        headersum: short_number(data_of(items, 0x0A)?),
        body: short_number(data_of(items, 0x0B)?),
        upload: number_of(items, 0x12),
    })
}

/// Reads the file header these bytes begin with, and its own size. That nothing
/// follows it is a rule of the directory entry.
pub fn read(bytes: &[u8], file_number: u32) -> Answer<(Header, usize)> {
    // 8: file header breaks a rule.
    let (items, size) = items(bytes).ok_or(8)?;
    let header = &bytes[..size];
    let right = mandatory_items_once(&items)
        && upload_at_most_once(&items)
        && sum_agrees(header, &items)
        && number_agrees(&items, file_number)
        && body_place_agrees(&items, size);
    refuse_if(!right, 8)?;
    Ok((values(&items).ok_or(8)?, size))
}
