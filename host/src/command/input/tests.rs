//! Inputs: what is a text, how digits are written, and what is refused in which words.
use super::super::made::{chance, piece};
use super::*;
use thoweldeck::{Entry, Piece, Request};

// The bytes of the only frame of an input in hexadecimal.
fn only(input: &[u8]) -> Vec<u8> {
    let read = frames(input).unwrap_or_else(|strange| panic!("{}: {strange}", String::from_utf8_lossy(input)));
    assert_eq!((read.form, read.frames.len(), read.frames[0].line), (Form::Hexadecimal, 1, None));
    read.frames[0].bytes.clone()
}

// The line on an input that is refused.
fn refused(input: &str) -> String {
    frames(input.as_bytes()).expect_err(input).to_string()
}

// A text in UTF-16 with its mark, in either order of bytes.
fn wide(text: &str, bytes_of: fn(u16) -> [u8; 2]) -> Vec<u8> {
    std::iter::once(0xFEFF).chain(text.encode_utf16()).flat_map(bytes_of).collect()
}

#[test]
fn what_is_no_text_is_one_raw_frame() {
    let mark = "\u{feff}".as_bytes();
    let half = b"\xFF\xFEA\x002\x00 ";
    for raw in [&b""[..], b" \r\n\t ", b"A2\0A6", b"A2 A6\x03", b"\xDCber", b"\x7f", mark, half, b"\xFF\xFE\0\xD8"] {
        let read = frames(raw).expect("a raw frame");
        assert_eq!(read.frames, [Heard { bytes: raw.to_vec(), line: None }], "{raw:02X?}");
        assert_eq!(read.form, Form::Raw, "{raw:02X?}");
    }
}

#[test]
fn no_frame_that_is_accepted_is_a_text() {
    let mut next = chance(1);
    let start = Request::start("123456-1".parse().unwrap(), "98-2".parse().unwrap(), 0x2020_2020);
    let entry = include_bytes!(concat!(env!("CARGO_MANIFEST_DIR"), "/samples/survey/entry.frame"));
    let data: Vec<u8> = (0..244).map(|_| b' ' + (next() % 95) as u8).collect();
    for frame in [start, entry.to_vec(), piece(7, 0x20_2020, &data)] {
        for value in 0..=255 {
            let mut frame = frame.clone();
            frame[14] = value;
            let is_accepted =
                Piece::read(&frame).is_ok() || Entry::read(&frame).is_ok() || Request::read(&frame).is_ok();
            // the control byte is 03, and 03 is in no text
            assert_eq!(is_accepted, value == 0x03);
            assert!(!is_accepted || as_text(&frame).is_none());
        }
        assert!(as_text(b"all but one can be seen\x03").is_none());
        // none begins with a byte order mark
        for mark in [&b"\xEF\xBB\xBF"[..], b"\xFF\xFE", b"\xFE\xFF"] {
            let mut frame = frame.clone();
            frame[..mark.len()].copy_from_slice(mark);
            assert!(Piece::read(&frame).is_err() && Entry::read(&frame).is_err() && Request::read(&frame).is_err());
        }
    }
}

#[test]
fn hexadecimal_as_people_have_it() {
    for text in [
        "A2A6A840",
        "a2a6A840",
        "a2 a6 A8 40",
        "A2A6 A840",
        "  A2\tA6\n\n A8\u{a0}40\n",
        "0xA2 0xA6 0xa8 0X40",
        "0xA2, 0xA6, 0xA8, 0x40,",
        "0xA2,0xA6,0xA8,0x40",
        "A2:A6:A8:40",
        "A2,A6,A8,40",
        "A2-A6-A8-40",
        "A2, A6, A8, 40",
        "A2 A6-A8 40",
        "A2:A6:\nA8:40",
        "\\xA2\\xA6\\xA8\\x40",
        "\\xA2\\xA6 \\xa8\\x40",
        "A2 A6 A8 40 # a frame's beginning",
        "A2 A6 # first\nA8 40# second | 00\n# Überflug 3, 50° hoch\n\n",
        "\u{feff}A2 A6 A8 40",
        "\u{feff}A2 A6\r\n\u{feff}A8 40\r\n",
    ] {
        assert_eq!(only(text.as_bytes()), b"\xA2\xA6\xA8\x40", "{text}");
        assert_eq!(only(&wide(text, u16::to_le_bytes)), b"\xA2\xA6\xA8\x40", "{text}");
        assert_eq!(only(&wide(text, u16::to_be_bytes)), b"\xA2\xA6\xA8\x40", "{text}");
    }
    for value in 0..=255u8 {
        for text in
            [format!("{value:02X}"), format!("{value:02x}"), format!("0x{value:02X}"), format!("\\x{value:02X}")]
        {
            assert_eq!(only(text.as_bytes()), [value]);
        }
    }
}

#[test]
fn a_word_that_is_no_bytes_is_told_with_its_line() {
    let no_pair = "is no pair of hexadecimal digits";
    let several = "is a number of several bytes, whose order is not told: write its pairs apart";
    for (text, said) in [
        ("AC 82 66 A6 O2 98 60\n", format!("`O2` in line 1 {no_pair}")),
        ("# a\n\nA2\r\nA6 zz\r\n", format!("`zz` in line 4 {no_pair}")),
        ("A2 A", "`A` in line 1 has 1 digit, an odd count".to_string()),
        ("A2A6A", "`A2A6A` in line 1 has 5 digits, an odd count".to_string()),
        ("A2,A6,O2", format!("`O2` in line 1 {no_pair}")),
        ("A2,,A6", format!("`A2,,A6` in line 1 {no_pair}")),
        (",A2", format!("`,A2` in line 1 {no_pair}")),
        ("A2 - A6", format!("`-` in line 1 {no_pair}")),
        ("A2,A", "`A` in line 1 has 1 digit, an odd count".to_string()),
        ("0x", format!("`0x` in line 1 {no_pair}")),
        ("0xA", "`0xA` in line 1 has 1 digit, an odd count".to_string()),
        ("0xA2A6", format!("`0xA2A6` in line 1 {several}")),
        ("A2A6,A840", format!("`A2A6` in line 1 {several}")),
        ("\\xA2A6", format!("`A2A6` in line 1 {several}")),
        ("\\xA2x", format!("`A2x` in line 1 {no_pair}")),
        ("\\x0xA2", format!("`0xA2` in line 1 {no_pair}")),
        ("+2", format!("`+2` in line 1 {no_pair}")),
        ("A2 | A6", format!("`|` in line 1 {no_pair}")),
        ("A2\u{200b} A6", format!("`A2\\u{{200b}}` in line 1 {no_pair}")),
        // Cyrillic, as a copy of a figure may have it
        ("А2", format!("`А2` in line 1 {no_pair}: its `А` is U+0410")),
        ("12:34:56 A2 A6", "`12:34:56` in line 1 may be a time or a place as well as bytes, since others in the line are not joined so".to_string()),
        ("Hello, world", format!("`Hello` in line 1 {no_pair}")),
        ("*", format!("`*` in line 1 {no_pair}")),
    ] {
        assert_eq!(refused(text), format!("is a text, and {said}"), "{text}");
    }
}

#[test]
fn a_long_word_is_cut_where_it_is_strange() {
    let digits = "A2".repeat(100);
    let odd = "is a text, and `A2A2A2A2A2A2A2A2A2A2...` in line 1 has 201 digits, an odd count";
    assert_eq!(refused(&format!("{digits}A")), odd);
    let no_pair = "is a text, and `8O404040A2A2A2A2A2A2...` in line 1 is no pair of hexadecimal digits";
    assert_eq!(refused(&format!("{digits}8O404040{digits}")), no_pair);
    let no_pair =
        "is a text, and `ÜberÜberÜberÜberÜber...` in line 1 is no pair of hexadecimal digits: its `Ü` is U+00DC";
    assert_eq!(refused(&format!("AA,{}", "Über".repeat(50))), no_pair);
}

#[test]
fn a_text_without_a_frame_is_told() {
    assert_eq!(refused("# heard nothing\n\n  # at all\n"), "is a text, and has no frame in it");
}

#[test]
fn a_line_of_a_dump_in_another_text_is_told() {
    for (text, word, line) in [
        ("00000010  02 b1 04 00\n", "00000010", 1),
        ("00000010: 02b1 0400  ....\n", "00000010:", 1),
        ("000010 02 b1 04 00  >..#.<\n", "000010", 1),
        ("0000020 02 b1 04 00\n", "0000020", 1),
        ("A2 A6 A8 40\n00000004  02 b1 04 00  |....|\n", "00000004", 2),
        ("A2A6A840  40 40\n", "A2A6A840", 1),
        ("10: A2 A6\n", "10:", 1),
        ("0010  A2 A6\n", "0010", 1),
    ] {
        let said =
            format!("is a text, and `{word}` in line {line} stands like a place of a dump, which begins with place 0");
        assert_eq!(refused(text), said);
    }
    for text in
        ["A2A6A8404040 62", "A2A6A840 404062AA", "A2A6A840  404062AA", "67AE0000 00 C9", "00000000", "0000 0000"]
    {
        let digits: String = text.split_whitespace().collect();
        assert_eq!(only(text.as_bytes()), only(digits.as_bytes()), "{text}");
    }
}
