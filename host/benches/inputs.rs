//! The inputs that are measured: a file, its pieces in frames, receptions of it, records and a directory entry.
use thoweldeck::{boundary, remainder};

const NUMBER: u32 = 7;
const LENGTH: u32 = 32_768;
const L: usize = LENGTH as usize;
const MAP: usize = L / 8;
const RECORD: usize = 20 + MAP + L;
const REQUEST: usize = 268;
const PIECE: usize = 244;

/// A place of a piece that starts a map byte, and one in the middle of a map byte.
const AT_BYTE: usize = 10 * PIECE;
const IN_BYTE: usize = 11 * PIECE;

const HEAD: &[u8; 15] = b"\xAC\x82\x66\xA6\x8C\x98\x60\xAA\x9E\xA6\x82\xA8\x6A\x77\x03";

/// The information of figure 3.2: a directory entry with its check bytes.
const FIGURE: &[u8; 99] = b"\x20\x67\xAE\x00\x00\x00\x00\x00\x00\xE0\x7E\x3C\x38\xEE\xCF\x3D\
    \x38\xAA\x55\x01\x00\x04\x67\xAE\x00\x00\x02\x00\x08\x42\x4C\x39\
    \x39\x31\x31\x32\x34\x03\x00\x03\x20\x20\x20\x04\x00\x04\xE0\x06\
    \x00\x00\x05\x00\x04\x49\x2D\x3B\x38\x06\x00\x04\xE1\x7E\x3C\x38\
    \x12\x00\x04\xE0\x7E\x3C\x38\x07\x00\x01\x00\x08\x00\x01\xCA\x09\
    \x00\x02\xFB\x44\x0A\x00\x02\x84\x0C\x0B\x00\x02\x50\x00\x00\x00\
    \x00\x9D\x3D";

/// All that is given or lent to a side: a file's number and length, its reception, a second one, frames to be
/// read, a record or bytes, and a target.
#[derive(Clone, PartialEq)]
pub struct Space {
    pub number: u32,
    pub length: u32,
    pub map: Vec<u8>,
    pub buffer: Vec<u8>,
    pub second_map: Vec<u8>,
    pub second_buffer: Vec<u8>,
    pub frames: Vec<Vec<u8>>,
    pub bytes: Vec<u8>,
    pub target: Vec<u8>,
}

impl Space {
    /// An opened reception, and nothing else.
    fn opened() -> Space {
        Space {
            number: NUMBER,
            length: LENGTH,
            map: vec![0; MAP],
            buffer: vec![0; L],
            second_map: Vec::new(),
            second_buffer: Vec::new(),
            frames: Vec::new(),
            bytes: Vec::new(),
            target: Vec::new(),
        }
    }

    /// A reception that holds the positions of which `held` says so, its other bytes 0.
    fn holding(held: fn(usize) -> bool) -> Space {
        let (map, buffer) = reception(held);
        Space { map, buffer, ..Space::opened() }
    }

    /// Two receptions.
    fn two(first: fn(usize) -> bool, second: fn(usize) -> bool) -> Space {
        let (second_map, second_buffer) = reception(second);
        Space { second_map, second_buffer, ..Space::holding(first) }
    }

    /// Puts the reception back as it was.
    pub fn put_back(&mut self, start: &Space) {
        self.map.copy_from_slice(&start.map);
        self.buffer.copy_from_slice(&start.buffer);
    }
}

/// 253 bytes to take a remainder of.
pub fn longest_content() -> Space {
    Space { bytes: file()[..253].to_vec(), ..Space::opened() }
}

/// One byte to take a remainder of.
pub fn one_byte() -> Space {
    Space { bytes: vec![0x5A], ..Space::opened() }
}

/// An opened reception.
pub fn opened() -> Space {
    Space::opened()
}

/// An opened reception, and a piece that starts at a map byte.
pub fn fresh() -> Space {
    Space { frames: vec![frame(AT_BYTE, PIECE)], ..Space::opened() }
}

/// An opened reception, and a piece that starts inside a map byte.
pub fn fresh_inside() -> Space {
    Space { frames: vec![frame(IN_BYTE, PIECE)], ..Space::opened() }
}

/// A reception that holds the piece already.
pub fn repeat() -> Space {
    Space { frames: vec![frame(AT_BYTE, PIECE)], ..Space::holding(|p| (AT_BYTE..AT_BYTE + PIECE).contains(&p)) }
}

/// A reception that holds the first half of the piece already.
pub fn overlapping() -> Space {
    Space { frames: vec![frame(AT_BYTE, PIECE)], ..Space::holding(|p| (AT_BYTE..AT_BYTE + PIECE / 2).contains(&p)) }
}

/// An opened reception, and all pieces of the file.
pub fn whole_file() -> Space {
    let frames = (0..L).step_by(PIECE).map(|at| frame(at, PIECE.min(L - at))).collect();
    Space { frames, ..Space::opened() }
}

/// Two receptions of a half each.
pub fn halves() -> Space {
    Space::two(|p| p < L / 2, |p| p >= L / 2)
}

/// Two receptions of all.
pub fn both_whole() -> Space {
    Space::two(|_| true, |_| true)
}

/// A reception of the even positions and one of the odd.
pub fn even_and_odd() -> Space {
    Space::two(|p| p % 2 == 0, |p| p % 2 == 1)
}

/// A complete reception, and a target for a record or a request.
pub fn complete() -> Space {
    Space { target: vec![0; RECORD], ..Space::holding(|_| true) }
}

/// A reception of the even positions, and a target for a record or a request.
pub fn every_second() -> Space {
    Space { target: vec![0; RECORD], ..Space::holding(|p| p % 2 == 0) }
}

/// An opened reception, and a target for a request.
pub fn one_hole() -> Space {
    Space { target: vec![0; REQUEST], ..Space::opened() }
}

/// The record of a complete reception.
pub fn complete_record() -> Space {
    Space { bytes: record(&complete()), ..Space::opened() }
}

/// The record of a reception of the even positions.
pub fn every_second_record() -> Space {
    Space { bytes: record(&every_second()), ..Space::opened() }
}

/// The frame of figure 3.2.
pub fn figure() -> Space {
    Space { frames: vec![[&HEAD[..], &[0xBD], FIGURE].concat()], ..Space::opened() }
}

/// The file: bytes of a fixed sequence without a pattern, as compressed data are.
fn file() -> Vec<u8> {
    let mut state: u32 = 0x2545_F491;
    let mut next = || {
        state ^= state << 13;
        state ^= state >> 17;
        state ^= state << 5;
        (state >> 24) as u8
    };
    (0..L).map(|_| next()).collect()
}

/// Map and buffer of a reception of the file.
fn reception(held: fn(usize) -> bool) -> (Vec<u8>, Vec<u8>) {
    let mut map = vec![0; MAP];
    let mut buffer = file();
    for (p, byte) in buffer.iter_mut().enumerate() {
        if held(p) {
            map[p / 8] |= 1 << (p % 8);
        } else {
            *byte = 0;
        }
    }
    (map, buffer)
}

/// The frame of the file's piece at a place.
fn frame(at: usize, size: usize) -> Vec<u8> {
    let mut frame = [&HEAD[..], &[0xBB, 0x02]].concat();
    frame.extend(NUMBER.to_le_bytes());
    frame.push(0);
    frame.extend(&(at as u32).to_le_bytes()[..3]);
    frame.extend(&file()[at..at + size]);
    let check = remainder(&frame[16..]);
    frame.extend(check.to_be_bytes());
    frame
}

/// The record of a reception.
fn record(space: &Space) -> Vec<u8> {
    let mut record = vec![0; RECORD];
    let mut size = 0;
    boundary::save(NUMBER, LENGTH, &space.map, &space.buffer, &mut record, &mut size).expect("a reception is saved");
    record.truncate(size);
    record
}
