//! A piece in a record: the positions that it goes to, which of them are new and in which holes they are, and where it
//! does not fit. Whether it fits is the library's answer.
use super::faults::{self, find, Fault};
use super::fields::{self, Field, Kind, Name};
use crate::command::bytes::{counted, positions};
use thoweldeck::{Piece, Reason, Reception};

/// The faults of a frame that a reception refuses for a reason: those of the frame, or of the piece in this reception.
pub fn faults(frame: &[u8], reception: &Reception, reason: Reason) -> Vec<Fault> {
    let fields = fields::of(Kind::Piece, frame);
    let piece = match Piece::read(frame) {
        Ok(piece) => piece,
        Err(_) => return faults::of(Kind::Piece, frame, reason),
    };
    let fault = match reason {
        Reason::OtherFile => other_file(&fields, &piece, reception),
        Reason::Beyond => beyond(&fields, &piece, reception),
        Reason::Differs => differs(&fields, &piece, reception),
        _ => None,
    };
    fault.into_iter().collect()
}

// Reason 9.
fn other_file(fields: &[Field<'_>], piece: &Piece<'_>, reception: &Reception) -> Option<Fault> {
    let field = find(fields, Name::Number)?;
    let words = format!("the record is of file {}", reception.number());
    let sentence = format!("it is a piece of file {}, and {words}", piece.number);
    Some(Fault::at(field.place, words).told(sentence))
}

// Reason 10: the first byte that has no position in the file, and how many have none.
fn beyond(fields: &[Field<'_>], piece: &Piece<'_>, reception: &Reception) -> Option<Fault> {
    let field = find(fields, Name::Data)?;
    let (start, end, length) = (u64::from(piece.offset), end(piece), u64::from(reception.length()));
    let first = start.max(length);
    let place = field.place + (first - start) as usize;
    let words = format!("the byte at place {place} goes to position {first}, and the file ends at {length}");
    let (by, size) = (counted(end.saturating_sub(length) as usize, "byte"), counted(length as usize, "byte"));
    let sentence = format!("it goes to {}, and ends {by} beyond the file of {size}", positions(start, end));
    Some(Fault::at(place, words).told(sentence))
}

// Reason 11: the first position that is held with another byte.
fn differs(fields: &[Field<'_>], piece: &Piece<'_>, reception: &Reception) -> Option<Fault> {
    let field = find(fields, Name::Data)?;
    let mut all = differing(piece, reception);
    let (position, is, held) = all.next()?;
    let place = field.place + (position - piece.offset) as usize;
    let words = format!("{is:02X} at place {place} goes to position {position}, where {held:02X} is held");
    let more = match all.count() {
        0 => String::new(),
        1 => ", and 1 position more differs".to_string(),
        count => format!(", and {count} positions more differ"),
    };
    let sentence = format!("position {position} is held with {held:02X}, and the piece has {is:02X} there{more}");
    Some(Fault::at(place, words).told(sentence))
}

// The position behind the last one of a piece.
fn end(piece: &Piece<'_>) -> u64 {
    u64::from(piece.offset) + piece.bytes.len() as u64
}

// The positions of a piece that the file has, each with its byte.
fn inside<'a>(piece: &'a Piece<'_>, reception: &Reception) -> impl Iterator<Item = (u32, u8)> + 'a {
    let length = reception.length();
    (piece.offset..).zip(piece.bytes.iter().copied()).take_while(move |(position, _)| *position < length)
}

// The positions that are held with another byte than a piece has: position, the piece's byte, the byte that is held.
fn differing<'a>(piece: &'a Piece<'_>, reception: &'a Reception) -> impl Iterator<Item = (u32, u8, u8)> + 'a {
    inside(piece, reception)
        .filter(|(position, _)| reception.is_held(*position))
        .map(|(position, byte)| (position, byte, reception.buffer()[position as usize]))
        .filter(|(_, is, held)| is != held)
}

/// Where a piece of a reception's file goes, in lines: its positions, and the holes that they are in.
pub fn lines(piece: &Piece<'_>, reception: &Reception) -> Vec<String> {
    if piece.number != reception.number() {
        return vec![format!("the piece goes nowhere in it, since it is of file {}", piece.number)];
    }
    let (start, end) = (u64::from(piece.offset), end(piece));
    let all = inside(piece, reception).count();
    let held = inside(piece, reception).filter(|(position, _)| reception.is_held(*position)).count();
    let mut line = format!("the piece goes to {}: {} new, {held} held already", positions(start, end), all - held);
    match differing(piece, reception).count() {
        0 => {}
        count => line.push_str(&format!(" ({count} with another byte)")),
    }
    if piece.bytes.len() > all {
        line.push_str(&format!(", {} beyond the end", piece.bytes.len() - all));
    }
    let mut lines = vec![line];
    for (index, hole) in reception.holes().enumerate() {
        let (from, to) = (u64::from(hole.start), u64::from(hole.end()));
        let filled = end.min(to).saturating_sub(start.max(from));
        if filled > 0 {
            let length = counted(hole.length as usize, "byte");
            lines.push(format!("hole {}, {}: {filled} of its {length}", index + 1, positions(from, to)));
        }
    }
    lines
}

#[cfg(test)]
mod tests {
    use super::*;
    use crate::command::made::{example, piece as frame};

    // The count of new positions that the lines on a frame tell, and the count of bytes that they tell of holes.
    fn counts(frame: &[u8], reception: &Reception) -> (usize, usize) {
        let lines = lines(&Piece::read(frame).expect("a piece"), reception);
        let count = |line: &str| line.split(": ").nth(1).and_then(|rest| rest.split(' ').next()?.parse().ok());
        let counts: Vec<usize> = lines.iter().map(|line| count(line).expect("a count")).collect();
        (counts[0], counts[1..].iter().sum())
    }

    #[test]
    fn a_fault_is_found_exactly_if_the_library_refuses() {
        let reception = example();
        let mut seen = [0; 16];
        for offset in (0..24).chain([65_536, 0xFF_FFFF]) {
            for size in 1..=22 {
                for (number, first) in [(7, b'A'), (7, b'X'), (8, b'A')] {
                    // the bytes of the file, or others
                    let bytes: Vec<u8> =
                        (0..size).map(|index| b"ABCD....EF.........."[(offset + index) as usize % 20]).collect();
                    let bytes = if first == b'X' { vec![b'X'; size as usize] } else { bytes };
                    let frame = frame(number, offset, &bytes);
                    match reception.clone().take(&frame) {
                        Ok(new) => {
                            assert_eq!(counts(&frame, &reception), (new as usize, new as usize));
                            seen[0] += 1;
                        }
                        Err(reason) => {
                            let found = faults(&frame, &reception, reason);
                            assert_eq!(found.len(), 1, "{offset} {size} {reason}");
                            assert!(found[0].place.map_or(false, |place| place < frame.len() - 2));
                            seen[usize::from(reason.number())] += 1;
                        }
                    }
                }
            }
        }
        assert!([0, 9, 10, 11].iter().all(|reason| seen[*reason] > 50), "every answer is given: {seen:?}");
    }

    #[test]
    fn each_fault_has_its_place_and_its_words() {
        let reception = example();
        for (frame, number, place, words, sentence) in [
            (
                frame(1202, 0, b"ABCD"),
                9,
                17,
                "the record is of file 7",
                "it is a piece of file 1202, and the record is of file 7",
            ),
            (
                frame(7, 18, b"...."),
                10,
                27,
                "the byte at place 27 goes to position 20, and the file ends at 20",
                "it goes to positions 18 to 21, and ends 2 bytes beyond the file of 20 bytes",
            ),
            (
                frame(7, 65_536, b"."),
                10,
                25,
                "the byte at place 25 goes to position 65536, and the file ends at 20",
                "it goes to position 65536, and ends 65517 bytes beyond the file of 20 bytes",
            ),
            (
                frame(7, 2, b"CX....E."),
                11,
                26,
                "58 at place 26 goes to position 3, where 44 is held",
                "position 3 is held with 44, and the piece has 58 there, and 1 position more differs",
            ),
        ] {
            let reason = reception.clone().take(&frame).expect_err("a refusal");
            let wanted = Fault::at(place, words).told(sentence);
            assert_eq!((reason.number(), faults(&frame, &reception, reason)), (number, vec![wanted]));
        }
    }

    #[test]
    fn the_frame_s_own_reason_comes_first() {
        let mut damaged = frame(8, 18, b"....");
        damaged[26] ^= 1;
        let found = faults(&damaged, &example(), Reason::Check);
        assert_eq!(found, faults::of(Kind::Piece, &damaged, Reason::Check));
        assert_eq!(found.len(), 1);
    }

    #[test]
    fn where_a_piece_goes_is_told() {
        let reception = example();
        let told =
            |offset: u32, bytes: &[u8]| lines(&Piece::read(&frame(7, offset, bytes)).expect("a piece"), &reception);
        assert_eq!(
            told(2, b"CD....EF.."),
            [
                "the piece goes to positions 2 to 11: 6 new, 4 held already",
                "hole 1, positions 4 to 7: 4 of its 4 bytes",
                "hole 2, positions 10 to 19: 2 of its 10 bytes"
            ]
        );
        assert_eq!(told(8, b"E"), ["the piece goes to position 8: 0 new, 1 held already"]);
        assert_eq!(
            told(9, b"X..........."),
            [
                "the piece goes to positions 9 to 20: 10 new, 1 held already (1 with another byte), 1 beyond the end",
                "hole 2, positions 10 to 19: 10 of its 10 bytes"
            ]
        );
    }
}
