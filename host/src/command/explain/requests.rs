//! The holes of a request: what each means, and where a refused request is at fault behind its flags.
use super::faults::{find, Fault};
use super::fields::{Field, Name, Walk};
use crate::command::bytes::{counted, number, positions};
use thoweldeck::LONGEST;

/// Walks over the holes of a request.
pub fn walked(walk: &mut Walk<'_>) {
    while !walk.left().is_empty() {
        walk.next(5, Name::Hole, |bytes| {
            let (start, length) = (number(&bytes[..3]), number(&bytes[3..]));
            match length {
                0 => format!("no byte at position {start}"),
                _ => format!("{}, {}", counted(length as usize, "byte"), positions(start, start + length)),
            }
        });
    }
}

/// Reason 7 of a request: the block size, the count of holes, or odd bytes.
pub fn size(fields: &[Field<'_>]) -> Option<Fault> {
    let (flags, block) = (find(fields, Name::Flags)?, find(fields, Name::BlockSize)?);
    let size = number(block.bytes);
    if size != 244 {
        let sentence = format!("the block size is {size}, and must be 244");
        return Some(Fault::at(block.place, "not 244").told(sentence));
    }
    let holes: Vec<&Field<'_>> = fields.iter().filter(|field| field.name == Name::Hole).collect();
    match (flags.bytes[0], holes.first(), holes.last().filter(|last| last.is_cut)) {
        (0x10, Some(first), _) => {
            let words = "a request for the start has no holes";
            Some(Fault::at(first.place, words).told("it asks for the start, and nothing may follow the block size"))
        }
        (0x11, None, _) => Some(Fault::at(flags.place, "no hole follows").told("it asks for holes, and lists none")),
        (_, _, Some(last)) => {
            let sentence = format!("a hole has 5 bytes, and the last one has {}", last.bytes.len());
            Some(Fault::at(last.place, "odd bytes").told(sentence))
        }
        _ => None,
    }
}

/// Reason 10 of a request: each hole that breaks a rule.
pub fn holes(fields: &[Field<'_>]) -> Vec<Fault> {
    let mut faults = Vec::new();
    let mut before: Option<u64> = None;
    let holes = fields.iter().filter(|field| field.name == Name::Hole && !field.is_cut);
    for (index, field) in holes.enumerate() {
        let (start, length) = (number(&field.bytes[..3]), number(&field.bytes[3..]));
        if let Some(words) = hole(index, start, length, before) {
            faults.push(Fault::at(field.place, words));
        }
        before = Some(start + length);
    }
    faults
}

// What is wrong with a hole, behind the end of the one before it.
fn hole(index: usize, start: u64, length: u64, before: Option<u64>) -> Option<String> {
    let (this, last, end) = (index + 1, index, start + length);
    if length == 0 {
        return Some(format!("hole {this} has no bytes"));
    }
    match before {
        Some(before) if start == before => {
            let rule = "at least one position must lie between them";
            Some(format!("hole {this} starts at position {start}, where hole {last} ends: {rule}"))
        }
        Some(before) if start < before => {
            Some(format!("hole {this} starts at position {start}, and hole {last} ends at {before}: holes ascend"))
        }
        _ if end > u64::from(LONGEST) => {
            Some(format!("hole {this} ends at {end}, beyond {LONGEST}, where the longest file ends"))
        }
        _ => None,
    }
}

#[cfg(test)]
mod tests {
    use crate::command::explain::{faults, Kind};
    use thoweldeck::{Reason, Request};

    // A frame of a request with holes, each a start and a length.
    fn request(holes: &[(u32, u32)]) -> Vec<u8> {
        let mut frame =
            b"\xA2\xA6\xA8\x40\x40\x40\x60\xAA\x9E\xA6\x82\xA8\x6A\x77\x03\xBB\x11\x07\0\0\0\xF4\0".to_vec();
        for (start, length) in holes {
            frame.extend(&start.to_le_bytes()[..3]);
            frame.extend(&length.to_le_bytes()[..2]);
        }
        frame
    }

    // Checks that a fault is found in a request exactly if the library refuses its holes; answers whether it does.
    fn same(holes: &[(u32, u32)]) -> bool {
        let frame = request(holes);
        let found = faults::of(Kind::Request, &frame, Reason::Beyond);
        match Request::read(&frame) {
            Ok(_) => assert_eq!(found, [], "{holes:?}"),
            Err(reason) => assert!(reason == Reason::Beyond && !found.is_empty(), "{holes:?}: {reason}"),
        }
        !found.is_empty()
    }

    #[test]
    fn a_bad_hole_is_found_exactly_if_the_library_refuses() {
        let starts = [0, 1, 4, 5, 8, 32_766, 32_767, 32_768, 0xFF_FFFF];
        let lengths = [0, 1, 3, 4, 32_767, 32_768, 65_535];
        let holes: Vec<(u32, u32)> =
            starts.iter().flat_map(|start| lengths.iter().map(move |length| (*start, *length))).collect();
        let mut counts = [0, 0];
        for first in &holes {
            same(&[*first]);
            for second in &holes {
                counts[usize::from(same(&[*first, *second]))] += 1;
                same(&[(0, 1), *first, *second]);
            }
        }
        assert!(counts[0] > 50 && counts[1] > 50, "both answers are given: {counts:?}");
    }

    #[test]
    fn a_size_of_a_request_is_found_exactly_if_the_library_refuses() {
        for flags in [0x10, 0x11] {
            for (block, behind) in
                [244u16, 243, 0, 62_464].into_iter().flat_map(|block| (0..12).map(move |size| (block, size)))
            {
                let mut frame = request(&[]);
                frame[16] = flags;
                frame[21..23].copy_from_slice(&block.to_le_bytes());
                // a hole of one byte, and another behind it
                frame.extend(b"\x01\0\0\x01\0\x05\0\0\x01\0\0\0".iter().take(behind));
                let found = faults::of(Kind::Request, &frame, Reason::Size);
                assert_eq!(Request::read(&frame).err(), found.first().map(|_| Reason::Size), "{frame:02X?}");
            }
        }
    }

    #[test]
    fn each_bad_hole_has_its_words() {
        let told = |holes: &[(u32, u32)]| {
            let found = faults::of(Kind::Request, &request(holes), Reason::Beyond);
            found.into_iter().map(|fault| (fault.place.expect("a place"), fault.sentence)).collect::<Vec<_>>()
        };
        let one = |place: usize, words: &str| vec![(place, words.to_string())];
        assert_eq!(
            told(&[(4, 4), (8, 2)]),
            one(28, "hole 2 starts at position 8, where hole 1 ends: at least one position must lie between them")
        );
        assert_eq!(told(&[(4, 4), (2, 1)]), one(28, "hole 2 starts at position 2, and hole 1 ends at 8: holes ascend"));
        assert_eq!(told(&[(4, 0)]), one(23, "hole 1 has no bytes"));
        let beyond = "hole 1 ends at 32769, beyond 32768, where the longest file ends";
        assert_eq!(told(&[(32_768, 1)]), one(23, beyond));
    }
}
