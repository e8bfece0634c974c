//! A record: its fields, and the first fault that a reader meets in it (01, "Record"). Whether it is refused is the
//! library's answer.
use super::faults::Fault;
use super::fields::{Name, Walk};
use crate::command::bytes::{counted, number, positions};
use thoweldeck::{Reception, LONGEST};

/// What every record begins with: the tag of the number, and the length of its data.
pub const START: [u8; 3] = [0x01, 0x04, 0x00];

// A part of a record: its tag, the name of its data, and the same in a sentence.
#[derive(Clone, Copy)]
struct Part {
    tag: u8,
    name: Name,
    words: &'static str,
}

const NUMBER: Part = Part { tag: 0x01, name: Name::Number, words: "the file's number" };
const LENGTH: Part = Part { tag: 0x02, name: Name::Length, words: "the file's length" };
const MAP: Part = Part { tag: 0x03, name: Name::Map, words: "the map" };
const BUFFER: Part = Part { tag: 0x04, name: Name::Buffer, words: "the buffer" };

/// Walks over a record as far as it can be read, and answers its first fault.
pub fn walked(walk: &mut Walk<'_>) -> Option<Fault> {
    let record = walk.left();
    let fault = read(walk).err();
    walk.rest(Name::LeftOver, "not read");
    fault.map(|fault| if is_turned_over(record) { turned_over(fault) } else { fault })
}

// Reads a record up to its end, or up to what cannot be read. A fault in the map is no such thing, and comes first.
fn read(walk: &mut Walk<'_>) -> Result<(), Fault> {
    head(walk, NUMBER, 4)?;
    data(walk, NUMBER, 4, |bytes| format!("file {}", number(bytes)))?;
    head(walk, LENGTH, 4)?;
    let place = walk.place();
    let length = number(data(walk, LENGTH, 4, |bytes| counted(number(bytes) as usize, "byte"))?);
    if length == 0 || length > u64::from(LONGEST) {
        let sentence = format!("the file's length is {length}, and must be 1 to 32,768 (place {place})");
        return Err(Fault::at(place, "not 1 to 32,768").told(sentence));
    }
    let length = length as usize;
    head(walk, MAP, map_size(length))?;
    let place = walk.place();
    let map = data(walk, MAP, map_size(length), |map| map_meaning(map, length))?;
    let rest = last_part(walk, map, length);
    spare_bit(map, place, length).map_or(rest, Err)
}

// The buffer, and nothing behind it.
fn last_part(walk: &mut Walk<'_>, map: &[u8], length: usize) -> Result<(), Fault> {
    head(walk, BUFFER, length)?;
    let place = walk.place();
    let meaning = |_: &[u8]| format!("{}, and 00 where not held", positions(0, length as u64));
    let buffer = data(walk, BUFFER, length, meaning)?;
    if let Some(fault) = unheld_byte(map, buffer, place) {
        return Err(fault);
    }
    let (behind, place) = (walk.left().len(), walk.place());
    if behind > 0 {
        let sentence = format!("nothing may follow the buffer, and at place {place} there is more");
        return Err(Fault::at(place, "nothing may follow the buffer").told(sentence));
    }
    Ok(())
}

// The tag of a part, and the length of its data, which must be this.
fn head(walk: &mut Walk<'_>, part: Part, length: usize) -> Result<(), Fault> {
    let Part { tag, words, .. } = part;
    let place = walk.place();
    let found = field(walk, 1, Name::Tag, &format!("tag {tag:02X}"), |bytes| match bytes[0] {
        found if found == tag => format!("{words} follows"),
        _ => format!("{tag:02X} is wanted here, the tag of {words}"),
    })?[0];
    if found != tag {
        let sentence = format!("the tag at place {place} is {found:02X}, and must be {tag:02X}, of {words}");
        return Err(Fault::at(place, format!("not {tag:02X}")).told(sentence));
    }
    let place = walk.place();
    let meaning = |bytes: &[u8]| counted(number(bytes) as usize, "byte");
    let found = number(field(walk, 2, Name::DataLength, &format!("the data length of {words}"), meaning)?);
    if found != length as u64 {
        let sentence = format!("the data length of {words} is {found}, and must be {length} (place {place})");
        return Err(Fault::at(place, format!("not {length}")).told(sentence));
    }
    Ok(())
}

// The data of a part.
fn data<'a>(
    walk: &mut Walk<'a>,
    part: Part,
    length: usize,
    meaning: impl Fn(&[u8]) -> String,
) -> Result<&'a [u8], Fault> {
    field(walk, length, part.name, part.words, meaning)
}

// A field that is there up to its end.
fn field<'a>(
    walk: &mut Walk<'a>,
    length: usize,
    name: Name,
    words: &str,
    meaning: impl Fn(&[u8]) -> String,
) -> Result<&'a [u8], Fault> {
    let bytes = match name {
        Name::Buffer => walk.next_text(length, name, meaning),
        _ => walk.next(length, name, meaning),
    };
    let (end, missing) = (walk.place(), counted(length - bytes.len(), "byte"));
    if bytes.is_empty() {
        return Err(Fault::of(None, format!("it is cut off at place {end}, before {words}")));
    }
    if bytes.len() < length {
        let sentence = format!("it is cut off at place {end}, inside {words}, with {missing} missing");
        return Err(Fault::at(end - 1, format!("cut off at place {end}, with {missing} missing")).told(sentence));
    }
    Ok(bytes)
}

// How many bytes the map of a file of this length has.
fn map_size(length: usize) -> usize {
    (length + 7) / 8
}

// What a map says in short.
fn map_meaning(map: &[u8], length: usize) -> String {
    let held = (0..length).filter(|position| is_set(map, *position)).count();
    format!("a bit for each position, from the low end on: {held} of {length} held")
}

// Whether the bit of a position is set in a map.
fn is_set(map: &[u8], position: usize) -> bool {
    map[position / 8] >> (position % 8) & 1 == 1
}

// The first bit of the map that is set behind the file's last position.
fn spare_bit(map: &[u8], place: usize, length: usize) -> Option<Fault> {
    let position = (length..8 * map.len()).find(|position| is_set(map, *position))?;
    let (place, bit, byte, last) = (place + position / 8, position % 8, map[position / 8], length - 1);
    let words = format!("bit {bit} of {byte:02X} at place {place} is a spare bit, behind position {last}, and set");
    Some(Fault::at(place, words))
}

// The first byte that is not zero at a position that is not held.
fn unheld_byte(map: &[u8], buffer: &[u8], place: usize) -> Option<Fault> {
    let position = (0..buffer.len()).find(|position| buffer[*position] != 0 && !is_set(map, *position))?;
    let (place, byte) = (place + position, buffer[position]);
    let words = format!("position {position} is not held, and its byte is {byte:02X}, not 00 (place {place})");
    Some(Fault::at(place, words))
}

// Whether a refused record has a map that says what is missing: turned over it is accepted, and holds bytes of which
// most are not zero.
fn is_turned_over(record: &[u8]) -> bool {
    let length = record.get(10..14).map_or(0, number) as usize;
    let mut turned = record.to_vec();
    for (index, byte) in turned.iter_mut().skip(17).take(map_size(length.min(LONGEST as usize))).enumerate() {
        let spare = (8 * index + 8).saturating_sub(length);
        *byte = !*byte & 0xFF >> spare.min(7);
    }
    match Reception::load(&turned) {
        Ok(reception) => {
            let seen = reception.buffer().iter().filter(|byte| **byte != 0).count();
            2 * seen > reception.held() as usize
        }
        Err(_) => false,
    }
}

// The same fault with the likely cause of it.
fn turned_over(fault: Fault) -> Fault {
    let sentence = format!("{}; it seems that the map says what is missing, but a set bit means held", fault.sentence);
    fault.told(sentence)
}

#[cfg(test)]
mod tests {
    use super::*;
    use crate::command::made::example;

    // A record of a length, in which every third position is held.
    fn record(length: u32) -> Vec<u8> {
        let mut record = Reception::open(0x0102_0304, length).expect("a length").save();
        let (map, buffer) = (17, 20 + map_size(length as usize));
        for position in (0..length as usize).step_by(3) {
            record[map + position / 8] |= 1 << (position % 8);
            record[buffer + position] = position as u8 | 1;
        }
        record
    }

    // Checks that the walk finds a fault exactly if the library refuses, and shows every byte; answers whether it does.
    fn same(bytes: &[u8]) -> bool {
        let mut walk = Walk::over(bytes);
        let found = walked(&mut walk);
        assert_eq!(found.is_some(), Reception::load(bytes).is_err(), "{bytes:02X?}: {found:?}");
        assert_eq!(walk.left(), []);
        let place = found.as_ref().and_then(|fault| fault.place);
        assert!(place.map_or(true, |place| place < bytes.len()), "{bytes:02X?}: {found:?}");
        found.is_some()
    }

    #[test]
    fn a_fault_is_found_exactly_if_the_library_refuses() {
        let mut counts = [0, 0];
        for whole in [example().save(), record(1), record(8), record(9), record(60)] {
            assert!(!same(&whole));
            for place in 0..whole.len() {
                for byte in (0..8).map(|bit| whole[place] ^ 1 << bit).chain([0x00, 0x01, 0x80, 0xFF]) {
                    let mut changed = whole.clone();
                    changed[place] = byte;
                    counts[usize::from(same(&changed))] += 1;
                }
                assert!(same(&whole[..place]), "a cut at {place}");
                same(&[&whole[..place], &[0], &whole[place..]].concat());
                same(&[&whole[..place], &whole[place + 1..]].concat());
            }
            assert!(same(&[&whole[..], &[0]].concat()), "a byte behind");
        }
        assert!(counts[0] > 300 && counts[1] > 1000, "both answers are given: {counts:?}");
    }

    #[test]
    fn lengths_at_the_limits() {
        for length in [1, 7, 8, 9, 32_767, 32_768] {
            let whole = record(length);
            assert!(!same(&whole), "{length}");
            // every bit of the map's last byte, of which some are spare
            for bit in 0..8 {
                let mut changed = whole.clone();
                changed[16 + map_size(length as usize)] ^= 1 << bit;
                same(&changed);
            }
            for wrong in [0, length - 1, length + 1, 32_769, 65_536 + length, u32::MAX] {
                let mut changed = whole.clone();
                changed[10..14].copy_from_slice(&wrong.to_le_bytes());
                assert!(same(&changed), "{wrong} for {length}");
            }
        }
        // as long as its fields say, and no record
        for length in [0u32, 32_769, 65_535] {
            let size = map_size(length as usize);
            let mut record = b"\x01\x04\0\x07\0\0\0\x02\x04\0".to_vec();
            record.extend(length.to_le_bytes());
            record.push(0x03);
            record.extend((size as u16).to_le_bytes());
            record.extend(vec![0; size]);
            record.push(0x04);
            record.extend((length as u16).to_le_bytes());
            record.extend(vec![0; length as usize]);
            assert!(same(&record), "{length}");
        }
    }

    // The place and the sentence of the fault in the example with some bytes changed.
    fn told(changes: &[(usize, u8)]) -> (Option<usize>, String) {
        let mut record = example().save();
        for (place, byte) in changes {
            record[*place] = *byte;
        }
        let fault = walked(&mut Walk::over(&record)).expect("a fault");
        (fault.place, fault.sentence)
    }

    #[test]
    fn each_fault_has_its_place_and_its_words() {
        let is = |place: usize, sentence: &str| (Some(place), sentence.to_string());
        assert_eq!(told(&[(0, 0x41)]), is(0, "the tag at place 0 is 41, and must be 01, of the file's number"));
        assert_eq!(told(&[(14, 0x04)]), is(14, "the tag at place 14 is 04, and must be 03, of the map"));
        assert_eq!(told(&[(8, 5)]), is(8, "the data length of the file's length is 5, and must be 4 (place 8)"));
        assert_eq!(told(&[(15, 4)]), is(15, "the data length of the map is 4, and must be 3 (place 15)"));
        assert_eq!(told(&[(22, 1)]), is(21, "the data length of the buffer is 276, and must be 20 (place 21)"));
        assert_eq!(told(&[(10, 0)]), is(10, "the file's length is 0, and must be 1 to 32,768 (place 10)"));
        assert_eq!(told(&[(12, 1)]), is(10, "the file's length is 65556, and must be 1 to 32,768 (place 10)"));
        let spare = "bit 4 of 10 at place 19 is a spare bit, behind position 19, and set";
        assert_eq!(told(&[(19, 0x10)]), is(19, spare));
        let unheld = "position 4 is not held, and its byte is 45, not 00 (place 27)";
        assert_eq!(told(&[(27, 0x45)]), is(27, unheld));
        // of two the first
        assert_eq!(told(&[(19, 0x10), (20, 0x05), (27, 0x45)]), is(19, spare));
        assert_eq!(told(&[(27, 0x45), (40, 0x45)]), is(27, unheld));
        let sentence = |bytes: &[u8]| walked(&mut Walk::over(bytes)).expect("a fault").sentence;
        assert_eq!(
            sentence(&example().save()[..30]),
            "it is cut off at place 30, inside the buffer, with 13 bytes missing"
        );
        assert_eq!(
            sentence(&example().save()[..16]),
            "it is cut off at place 16, inside the data length of the map, with 1 byte missing"
        );
        assert_eq!(sentence(&example().save()[..7]), "it is cut off at place 7, before tag 02");
        let behind = [&example().save()[..], b"\n"].concat();
        assert_eq!(sentence(&behind), "nothing may follow the buffer, and at place 43 there is more");
    }

    #[test]
    fn a_map_that_says_what_is_missing_is_told() {
        let turned = "it seems that the map says what is missing, but a set bit means held";
        for last in [0xFF, 0x0F] {
            let (_, sentence) = told(&[(17, 0xF0), (18, 0xFC), (19, last)]);
            assert!(sentence.ends_with(turned), "{sentence}");
        }
        for changes in [&[(19, 0x10)][..], &[(27, 0x45)], &[(17, 0x00)], &[(17, 0xF0), (18, 0xFC), (20, 0x05)]] {
            assert!(!told(changes).1.contains(turned));
        }
    }
}
