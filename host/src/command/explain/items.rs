//! The file header of a directory entry: its items, what each means, and the first rule that a refused one breaks.
use super::faults::Fault;
use super::fields::{Field, Name, Walk};
use crate::command::bytes::{characters, counted, date, number};
use crate::command::headers;

/// Walks over the items of a file header.
pub fn walked(walk: &mut Walk<'_>) {
    let sum = sum(&walk.left()[..end(walk.left())]);
    walk.next(2, Name::Header, |bytes| {
        if bytes == [0xAA, 0x55] { "AA 55 starts a file header" } else { "a file header starts with AA 55" }.to_string()
    });
    while let [low, high, size, ..] = *walk.left() {
        let id = u16::from_le_bytes([low, high]);
        walk.next(3 + usize::from(size), Name::Item, |bytes| meaning(id, &bytes[3..], sum));
        if id == 0 {
            break;
        }
    }
    walk.rest(Name::LeftOver, "not a part of the header");
}

// Where a header ends: behind the item that ends it, or with all bytes where there is none.
fn end(header: &[u8]) -> usize {
    let mut place = 2;
    while let Some([low, high, size]) = header.get(place..place + 3) {
        place += 3 + usize::from(*size);
        if (*low, *high) == (0, 0) {
            break;
        }
    }
    place.min(header.len())
}

// The sum of a header's bytes, the two data bytes of its item 0A taken as 0.
fn sum(header: &[u8]) -> u16 {
    let mut sum = headers::sum(header);
    let mut place = 2;
    while let Some([low, high, size]) = header.get(place..place + 3) {
        if (*low, *high, *size) == (0x0A, 0, 2) {
            for byte in header.iter().skip(place + 3).take(2) {
                sum = sum.wrapping_sub(u16::from(*byte));
            }
        }
        place += 3 + usize::from(*size);
    }
    sum
}

// The length of an item that has a fixed one (01, "File header").
fn fixed_length(id: u16) -> Option<usize> {
    match id {
        0x00 => Some(0),
        0x01 | 0x04 | 0x05 | 0x06 | 0x12 => Some(4),
        0x02 => Some(8),
        0x03 => Some(3),
        0x07 | 0x08 => Some(1),
        0x09..=0x0B => Some(2),
        _ => None,
    }
}

// What an item means.
fn meaning(id: u16, data: &[u8], sum: u16) -> String {
    if let Some(length) = fixed_length(id).filter(|length| *length != data.len()) {
        return format!("{id:02X} has {}, and not {}", counted(length, "byte"), data.len());
    }
    let value = number(&data[..data.len().min(8)]);
    match id {
        0x00 => "the end of the header".to_string(),
        0x01 => format!("01 file number: {value}"),
        0x02 => format!("02 name: `{}`", characters(data)),
        0x03 => format!("03 extension: `{}`", characters(data)),
        0x04 => format!("04 the file's length, header and body: {value}"),
        0x05 => format!("05 made: {}", date(value)),
        0x06 => format!("06 changed: {}", date(value)),
        0x07 => format!("07 upsets: {value}"),
        0x08 => format!("08 type: {value}"),
        0x09 => format!("09 the body's sum: {value:04X}"),
        0x0A => format!("0A the header's sum: {value:04X}; these two taken as 0 it is {sum:04X}"),
        0x0B => format!("0B the body starts at position {value} of the file"),
        0x12 => format!("12 uploaded: {}", date(value)),
        _ => format!("{id:02X} is not known here, and skipped"),
    }
}

// An item in the fields of a frame.
struct Item<'a> {
    place: usize,
    id: u16,
    data: &'a [u8],
    is_cut: bool,
}

// The items among fields.
fn items<'a>(fields: &[Field<'a>]) -> Vec<Item<'a>> {
    let is_item = |field: &&Field<'a>| field.name == Name::Item && field.bytes.len() >= 3;
    let item = |field: &Field<'a>| Item {
        place: field.place,
        id: number(&field.bytes[..2]) as u16,
        data: &field.bytes[3..],
        is_cut: field.is_cut,
    };
    fields.iter().filter(is_item).map(item).collect()
}

/// The first rule of a file header that is broken, in the order in which a reader meets them.
pub fn fault(fields: &[Field<'_>]) -> Option<Fault> {
    let start = fields.iter().find(|field| field.name == Name::Header);
    if start.map_or(true, |field| field.bytes != [0xAA, 0x55]) {
        let fault = Fault::of(start.map(|field| field.place), "it does not start with AA 55");
        return Some(fault.told("the file header does not start with AA 55"));
    }
    let items = items(fields);
    in_the_walk(&items).or_else(|| at_the_end(fields, &items)).or_else(|| of_counts(&items)).or_else(|| {
        let number = fields.iter().find(|field| field.name == Name::Number).map(|field| number(field.bytes));
        of_values(&items, number?, &header_bytes(fields))
    })
}

// The bytes of the header among fields.
fn header_bytes(fields: &[Field<'_>]) -> Vec<u8> {
    let is_header = |field: &&Field<'_>| matches!(field.name, Name::Header | Name::Item);
    fields.iter().filter(is_header).flat_map(|field| field.bytes.iter().copied()).collect()
}

// A length that is not the item's, or that runs past the end.
fn in_the_walk(items: &[Item<'_>]) -> Option<Fault> {
    items.iter().find_map(|item| {
        let (place, id, length) = (item.place + 2, item.id, item.data.len());
        if item.is_cut {
            let sentence = format!("item {id:02X} of the file header runs past the end");
            return Some(Fault::at(place, "it runs past the end").told(sentence));
        }
        let wanted = fixed_length(id).filter(|wanted| *wanted != length)?;
        let length = counted(length, "byte");
        let sentence = format!("item {id:02X} of the file header has {length}, and not {wanted}");
        Some(Fault::at(place, "a wrong length").told(sentence))
    })
}

// No item that ends the header, or something behind it.
fn at_the_end(fields: &[Field<'_>], items: &[Item<'_>]) -> Option<Fault> {
    let over = fields.iter().find(|field| field.name == Name::LeftOver);
    if items.last().map_or(true, |item| item.id != 0) {
        let fault = Fault::of(over.map(|field| field.place), "the item that ends the header is missing");
        return Some(fault.told("the item that ends the file header is missing"));
    }
    over.map(|field| {
        let follow = if field.bytes.len() == 1 { "byte follows" } else { "bytes follow" };
        let sentence = format!("{} {follow} the file header, and nothing may", field.bytes.len());
        Fault::at(field.place, "nothing may follow the header").told(sentence)
    })
}

// A known item that is there twice, or a mandatory one that is missing.
fn of_counts(items: &[Item<'_>]) -> Option<Fault> {
    let all_of = |id: u16| items.iter().filter(move |item| item.id == id);
    let twice = (0x01..=0x0B).chain([0x12]).find_map(|id| all_of(id).nth(1));
    if let Some(Item { place, id, .. }) = twice {
        let sentence = format!("item {id:02X} of the file header is there twice");
        return Some(Fault::at(*place, "there are two of it").told(sentence));
    }
    let missing = (0x01..=0x0B).find(|id| all_of(*id).next().is_none())?;
    let sentence = format!("item {missing:02X} of the file header is missing");
    Some(Fault::of(None, format!("item {missing:02X} is missing")).told(sentence))
}

// A value that does not fit the others: the number, the sum, or where the body starts.
fn of_values(items: &[Item<'_>], frame_number: u64, header: &[u8]) -> Option<Fault> {
    let value = |id: u16| {
        let item = items.iter().find(|item| item.id == id)?;
        Some((item.place + 3, number(item.data)))
    };
    let (sum, length) = (u64::from(sum(header)), header.len() as u64);
    let (number_at, number) = value(0x01)?;
    let (sum_at, told_sum) = value(0x0A)?;
    let (body_at, body) = value(0x0B)?;
    let (_, size) = value(0x04)?;
    if number != frame_number {
        let sentence = format!("item 01 is file {number}, and the frame's number is {frame_number}");
        Some(Fault::at(number_at, "not the frame's number").told(sentence))
    } else if told_sum != sum {
        let sentence = format!("item 0A is {told_sum:04X}, and the sum of the file header is {sum:04X}");
        Some(Fault::at(sum_at, "not the sum").told(sentence))
    } else if body < length {
        let sentence = format!("item 0B is {body}, inside the file header, which has {length} bytes");
        Some(Fault::at(body_at, "inside the header").told(sentence))
    } else if body > size {
        let sentence = format!("item 0B is {body}, beyond the end of the file, which has {size} bytes");
        Some(Fault::at(body_at, "beyond the file's end").told(sentence))
    } else {
        None
    }
}

#[cfg(test)]
mod tests {
    use super::*;
    use crate::command::explain::{fields, Kind};
    use thoweldeck::{remainder, Entry, Reason};

    // A frame with the header of an entry, the check made right.
    fn entry(header: &[u8]) -> Vec<u8> {
        let sample = include_bytes!(concat!(env!("CARGO_MANIFEST_DIR"), "/samples/survey/entry.frame"));
        let mut frame = sample[..33].to_vec();
        frame.extend(header);
        let check = remainder(&frame[16..]);
        frame.extend(check.to_be_bytes());
        frame
    }

    // Checks that the walk finds a fault exactly if the library refuses 8; answers whether it does.
    fn same(header: &[u8]) -> bool {
        let frame = entry(header);
        let found = fault(&fields::of(Kind::Entry, &frame));
        match Entry::read(&frame) {
            Ok(_) => assert!(found.is_none(), "{header:02X?}: {found:?}"),
            Err(reason) => assert!(reason == Reason::Header && found.is_some(), "{header:02X?}: {reason}"),
        }
        found.is_some()
    }

    // The header with its sum made right again.
    fn summed(mut header: Vec<u8>) -> Vec<u8> {
        let sum = sum(&header).to_le_bytes();
        if let Some(place) = header.windows(3).position(|head| head == [0x0A, 0, 2]) {
            if let Some(data) = header.get_mut(place + 3..place + 5) {
                data.copy_from_slice(&sum);
            }
        }
        header
    }

    #[test]
    fn a_fault_is_found_exactly_if_the_library_refuses() {
        let sample = include_bytes!(concat!(env!("CARGO_MANIFEST_DIR"), "/samples/survey/entry.frame"));
        let whole = Entry::read(sample).expect("a sample").bytes.to_vec();
        assert!(!same(&whole));
        let mut counts = [0, 0];
        for place in 0..whole.len() {
            // every bit of it turned over, every known id, and lengths
            for byte in (0..8).map(|bit| whole[place] ^ 1 << bit).chain(0..=0x13).chain([0x7F, 0x80, 0xFF]) {
                let mut header = whole.clone();
                header[place] = byte;
                same(&header);
                counts[usize::from(same(&summed(header)))] += 1;
            }
            assert!(same(&whole[..place]) && same(&summed(whole[..place].to_vec())));
            // a byte more, and a byte less
            for byte in [0x00, 0x01, 0x0A, 0x12, 0xFF] {
                same(&summed([&whole[..place], &[byte], &whole[place..]].concat()));
            }
            same(&summed([&whole[..place], &whole[place + 1..]].concat()));
        }
        assert!(counts[0] > 300 && counts[1] > 300, "both answers are given: {counts:?}");
    }
}
