//! What bytes look like that are no frame, and what to do about it.
use super::addresses::{self, Role};
use super::fields::Kind;
use super::frames::{INFORMATION, MOST};
use super::records;
use crate::command::input::as_text;
use thoweldeck::{remainder, Entry, Piece, Reception, Request};

/// The kind that a frame is accepted as. No frame is accepted as two.
pub fn accepted_as(frame: &[u8]) -> Option<Kind> {
    if Piece::read(frame).is_ok() {
        Some(Kind::Piece)
    } else if Entry::read(frame).is_ok() {
        Some(Kind::Entry)
    } else if Request::read(frame).is_ok() {
        Some(Kind::Request)
    } else {
        None
    }
}

/// What bytes are most likely meant to be. Pieces and requests share a protocol.
pub fn kind(bytes: &[u8]) -> Kind {
    let flags = bytes.get(16).copied().unwrap_or(0);
    if is_like_record(bytes) {
        Kind::Record
    } else if let Some(kind) = accepted_as(bytes) {
        kind
    } else if bytes.get(15) == Some(&0xBD) {
        Kind::Entry
    } else if flags == 0x10 || flags == 0x11 {
        Kind::Request
    } else {
        Kind::Piece
    }
}

/// A line on bytes that are no frame, with a hint. A frame, damaged or not, needs none.
pub fn line(bytes: &[u8]) -> Option<String> {
    if is_like_record(bytes) {
        let line = match Reception::load(bytes) {
            Ok(_) => "this is a record, and no frame: `thoweldeck holes` and `thoweldeck show` tell what it holds",
            Err(_) => "this looks like a record, and no frame begins so",
        };
        return Some(line.to_string());
    }
    if accepted_as(bytes).is_some() {
        return None;
    }
    if is_framed(bytes) {
        return with_link_check(bytes);
    }
    let line = match known(bytes) {
        _ if bytes.is_empty() => "there is nothing in it: a frame has at least 16 bytes, and a record 22".to_string(),
        Some((what, hint)) => format!("this looks like {what}, and not like a frame{hint}"),
        None if is_information(bytes) => "this looks like the information of a frame alone, since its check agrees: \
            two addresses, control 03 and the protocol stand before it in a frame"
            .to_string(),
        None => "this looks neither like a frame nor like a record: `--as` says what it is read as".to_string(),
    };
    Some(line)
}

/// A line on bytes that are surely no frame, damaged or not: nothing at all, a record, something else that is known, or
/// more than a frame has.
pub fn stray(bytes: &[u8]) -> Option<String> {
    let is_other = !is_framed(bytes) && (bytes.is_empty() || known(bytes).is_some());
    if is_like_record(bytes) || is_other {
        return line(bytes);
    }
    let (count, most) = (bytes.len(), INFORMATION + MOST);
    let long = || format!("this has {count} bytes, and a frame has {most} at most: a raw input is one frame");
    Some(bytes).filter(|_| count > most).map(|bytes| with_link_check(bytes).unwrap_or_else(long))
}

// Whether bytes begin as a record does, or go on as one behind its number: no frame has these bytes in its addresses.
fn is_like_record(bytes: &[u8]) -> bool {
    bytes.starts_with(&records::START) || bytes.get(7..10) == Some(&[0x02, 0x04, 0x00])
}

// Whether bytes have what is a frame's even if it is damaged: its two addresses, or control and protocol.
fn is_framed(bytes: &[u8]) -> bool {
    let well_formed = |role: &Role| role.bytes(bytes).map_or(false, |bytes| !addresses::is_malformed(*role, bytes));
    let head = bytes.get(14..INFORMATION);
    Role::BOTH.iter().all(well_formed) || matches!(head, Some([0x03, 0xBB | 0xBD]))
}

/// The line on a frame that is accepted without its last two bytes.
pub fn with_link_check(frame: &[u8]) -> Option<String> {
    let name = accepted_as(&frame[..frame.len().saturating_sub(2)])?.name();
    Some(format!("without its last two bytes it is {name}: they look like the link's own frame check; remove them"))
}

// Whether bytes are the information of a piece or an entry: the first are its flags, and the last two the remainder of
// all before them.
fn is_information(bytes: &[u8]) -> bool {
    match (bytes.first(), bytes.len().checked_sub(2)) {
        (Some(0x02 | 0x20 | 0x60), Some(end)) if end < 254 => remainder(&bytes[..end]).to_be_bytes() == bytes[end..],
        _ => false,
    }
}

// What begins and ends in a known way: its name, and a hint.
type Known = (&'static [u8], &'static [u8], &'static str, &'static str);

const FILE: &str = ": a file is received in frames, and this is what they bring";
const KISS: &str = ": the C0 00 before the frame and the C0 behind it are no part of it";
const FLAGS: &str = ": the 7E before the frame and the 7E behind it are no part of it";
const SOUND: &str = ": a modem makes frames of it";
const PACKED: &str = ": take the files out of it first";

const KNOWN: [Known; 13] = [
    (b"\xAA\x55", b"", "a received file with its header", FILE),
    (b"\xC0\x00", b"\xC0", "what a modem hands over (KISS)", KISS),
    (b"\x7E", b"\x7E", "what goes over the link, with its flags", FLAGS),
    (b"RIFF", b"", "a recording of sound", SOUND),
    (b"OggS", b"", "a recording of sound", SOUND),
    (b"fLaC", b"", "a recording of sound", SOUND),
    (b"\x89PNG", b"", "a picture", ""),
    (b"\xFF\xD8\xFF", b"", "a picture", ""),
    (b"GIF8", b"", "a picture", ""),
    (b"%PDF", b"", "a document", ""),
    (b"PK\x03\x04", b"", "packed files", PACKED),
    (b"\x1F\x8B", b"", "packed files", PACKED),
    (b"\x7FELF", b"", "a program", ""),
];

/// What bytes look like by their beginning and their end, and a hint on it.
pub fn known(bytes: &[u8]) -> Option<(&'static str, &'static str)> {
    let known = KNOWN.iter().find(|(start, end, ..)| bytes.starts_with(start) && bytes.ends_with(end));
    known.map(|(.., what, hint)| (*what, *hint)).or_else(|| text(bytes))
}

// A text, in UTF-8 or in an older code, with most of it in plain letters. (One in hexadecimal was read as the bytes that it
// says.)
fn text(bytes: &[u8]) -> Option<(&'static str, &'static str)> {
    let is_visible = |byte: &u8| !byte.is_ascii_control() || byte.is_ascii_whitespace();
    let plain = bytes.iter().filter(|byte| byte.is_ascii()).count();
    let is_old = !bytes.is_empty() && bytes.iter().all(is_visible) && 4 * plain >= 3 * bytes.len();
    let is_text = as_text(bytes).is_some() || is_old;
    Some(("a text", ": in a text, a frame is written in hexadecimal")).filter(|_| is_text)
}

#[cfg(test)]
mod tests {
    use super::*;

    const PIECE: &[u8] = include_bytes!(concat!(env!("CARGO_MANIFEST_DIR"), "/samples/survey/first/01.frame"));
    const ENTRY: &[u8] = include_bytes!(concat!(env!("CARGO_MANIFEST_DIR"), "/samples/survey/entry.frame"));

    // Checks that the line on bytes begins so.
    fn told(bytes: &[u8], start: &str) {
        let line = line(bytes).expect("a line");
        assert!(line.starts_with(start), "{line}");
    }

    #[test]
    fn a_frame_needs_no_line() {
        assert_eq!((line(PIECE), line(ENTRY)), (None, None));
        for frame in [PIECE, ENTRY] {
            // each byte damaged
            for place in 0..frame.len() {
                let mut damaged = frame.to_vec();
                damaged[place] ^= 0x81;
                assert_eq!((line(&damaged), stray(&damaged)), (None, None), "{place}");
            }
        }
    }

    #[test]
    fn what_is_no_frame_is_told_as_what_it_looks_like() {
        told(b"", "there is nothing in it");
        told(&Reception::open(7, 20).expect("a length").save(), "this is a record, and no frame: `thoweldeck holes`");
        told(b"\x01\x04\0\x07\0\0\0", "this looks like a record, and no frame begins so");
        told(b"\0\x04\0\x07\0\0\0\x02\x04\0\x14\0\0\0", "this looks like a record, and no frame begins so");
        told(b"geh\xF6rt am Abend\r\n", "this looks like a text, and not like a frame");
        told(b"\xAA\x55\x01\0\x04\x07\0\0\0", "this looks like a received file with its header, and not");
        told(b"\x89PNG\r\n\x1A\n\0\0", "this looks like a picture, and not like a frame");
        told(b"RIFF\0\0\0\0WAVEfmt ", "this looks like a recording of sound, and not like a frame: a modem");
        told("Gehört am Abend\n".as_bytes(), "this looks like a text, and not like a frame");
        told(&[0; 40], "this looks neither like a frame nor like a record");
        told(b"\x13\x37", "this looks neither like a frame nor like a record");
    }

    #[test]
    fn what_is_surely_no_frame_is_stray() {
        // a record whose map has 187 bytes has 03 BB where a frame has control and protocol
        let record = Reception::open(7, 8 * 0xBB).expect("a length").save();
        assert_eq!(record[14..16], [0x03, 0xBB]);
        let two = [PIECE, PIECE].concat();
        for bytes in [&b""[..], &record, &record[..30], b"\xAA\x55\x01\0", b"\x89PNG\r\n", b"notes", &two, &[0; 272]] {
            assert!(stray(bytes).is_some(), "{bytes:02X?}");
        }
        // what may be a frame of which little is left is none of these
        for bytes in [&[0; 40][..], &PIECE[..10], &PIECE[5..], &[ENTRY, b"\x12\x34"].concat()] {
            assert_eq!(stray(bytes), None, "{bytes:02X?}");
        }
        let line = stray(&[PIECE, b"\x12\x34"].concat()).expect("it is too long");
        assert!(line.starts_with("without its last two bytes it is a file piece"), "{line}");
    }

    #[test]
    fn a_frame_with_too_much_or_too_little_is_told() {
        told(&[b"\xC0\0", PIECE, b"\xC0"].concat(), "this looks like what a modem hands over (KISS)");
        told(&[b"\x7E", PIECE, b"\x7E"].concat(), "this looks like what goes over the link, with its flags");
        told(&[PIECE, b"\x12\x34"].concat(), "without its last two bytes it is a file piece");
        told(&[ENTRY, b"\x12\x34"].concat(), "without its last two bytes it is a directory entry");
        told(&PIECE[16..], "this looks like the information of a frame alone");
        told(&ENTRY[16..], "this looks like the information of a frame alone");
    }

    #[test]
    fn a_frame_is_what_it_is_accepted_as() {
        assert_eq!((kind(PIECE), kind(ENTRY)), (Kind::Piece, Kind::Entry));
        let request = Request::start("UOSAT5-11".parse().unwrap(), "VA3SFL-0".parse().unwrap(), 7);
        assert_eq!((kind(&request), kind(&request[..20])), (Kind::Request, Kind::Request));
        assert_eq!(
            (kind(&ENTRY[..20]), kind(b""), kind(&[0x01, 0x04, 0x00])),
            (Kind::Entry, Kind::Piece, Kind::Record)
        );
    }
}
