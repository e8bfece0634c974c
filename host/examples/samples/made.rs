//! The sample frames: two figures of the thesis, and a made-up file of a survey as two stations heard it.
use thoweldeck::remainder;

/// Each sample's name, with its folder, and its bytes.
pub fn samples() -> Vec<(String, Vec<u8>)> {
    let mut samples = vec![
        ("figures/figure-3.2.hex".to_string(), hexadecimal(&framed(0xBD, FIGURE_3_2))),
        ("figures/figure-3.3.hex".to_string(), hexadecimal(&framed(0xBB, FIGURE_3_3))),
        ("survey/entry.frame".to_string(), entry()),
        ("survey/whole.file".to_string(), file()),
    ];
    samples.extend(heard("first", first_station()));
    samples.extend(heard("second", second_station()));
    samples
}

// The frames that a station heard, named in their order.
fn heard(station: &str, frames: Vec<Vec<u8>>) -> Vec<(String, Vec<u8>)> {
    let named = |(index, frame)| (format!("survey/{station}/{:02}.frame", index + 1), frame);
    frames.into_iter().enumerate().map(named).collect()
}

// The first station's pass: pieces 0 to 2, piece 3 damaged, a repeat, a piece of another file, and more of its own.
fn first_station() -> Vec<Vec<u8>> {
    let mut damaged = piece(NUMBER, 732, 244);
    damaged[100] ^= 0x10;
    vec![
        piece(NUMBER, 0, 244),
        piece(NUMBER, 244, 244),
        piece(NUMBER, 488, 244),
        damaged,
        piece(NUMBER, 244, 244),
        piece(NUMBER + 1, 0, 244),
        piece(NUMBER, 976, 244),
        piece(NUMBER, 1952, 244),
        piece(NUMBER, 2196, 162),
    ]
}

// The second station's pass, which begins late: out of order, and cut elsewhere, as an answer to a request may be.
fn second_station() -> Vec<Vec<u8>> {
    vec![
        piece(NUMBER, 1220, 244),
        piece(NUMBER, 1464, 244),
        piece(NUMBER, 1700, 244),
        piece(NUMBER, 1900, 100),
        piece(NUMBER, 700, 244),
        piece(NUMBER, 940, 100),
    ]
}

const NUMBER: u32 = 1201;
const MADE: u32 = 1_790_000_000;

// A piece of the survey's file in a frame.
fn piece(number: u32, offset: usize, size: usize) -> Vec<u8> {
    let mut information = vec![0x02];
    information.extend(number.to_le_bytes());
    information.push(0);
    information.extend(&(offset as u32).to_le_bytes()[..3]);
    information.extend(&file()[offset..offset + size]);
    checked(0xBB, information)
}

// The directory entry of the survey's file in a frame.
fn entry() -> Vec<u8> {
    let mut information = vec![0x20];
    information.extend(NUMBER.to_le_bytes());
    information.extend(0u32.to_le_bytes());
    information.extend((MADE + 7200).to_le_bytes());
    information.extend((MADE + 7260).to_le_bytes());
    information.extend(header());
    checked(0xBD, information)
}

// The survey's file: its header and its body.
fn file() -> Vec<u8> {
    let mut file = header();
    file.extend(body());
    file
}

// How many bytes the header has: AA 55, twelve items, and the item that ends it.
const HEADER: u16 = 80;

// The header of the survey's file, with its sum in item 0A.
fn header() -> Vec<u8> {
    let body = body();
    let mut header = vec![0xAA, 0x55];
    let mut item = |id: u8, data: &[u8]| {
        header.extend([id, 0, data.len() as u8]);
        header.extend(data);
    };
    item(0x01, &NUMBER.to_le_bytes());
    item(0x02, b"SURVEY  ");
    item(0x03, b"TXT");
    item(0x04, &(u32::from(HEADER) + body.len() as u32).to_le_bytes());
    item(0x05, &MADE.to_le_bytes());
    item(0x06, &MADE.to_le_bytes());
    item(0x07, &[0]);
    item(0x08, &[0]);
    item(0x09, &sum(&body).to_le_bytes());
    item(0x0A, &[0, 0]);
    item(0x0B, &HEADER.to_le_bytes());
    item(0x12, &(MADE + 7200).to_le_bytes());
    item(0x00, &[]);
    let place = 2 + 7 + 11 + 6 + 7 + 7 + 7 + 4 + 4 + 5 + 3;
    let sum = sum(&header);
    header[place..place + 2].copy_from_slice(&sum.to_le_bytes());
    header
}

fn sum(bytes: &[u8]) -> u16 {
    bytes.iter().fold(0, |sum: u16, byte| sum.wrapping_add(u16::from(*byte)))
}

// The body of the survey's file: a text, and made-up readings of a lake's level.
fn body() -> Vec<u8> {
    let mut text = String::from(
        "Lake survey, autumn course. Gauge 3, east shore.\r\n\
         Level in millimetres over the gauge's zero, water in tenths of a degree.\r\n\
         Day Hour Level Water\r\n",
    );
    for reading in 0..96u32 {
        let level = 1840 + reading * 37 % 91 - reading / 3;
        let water = 118 + reading * 5 % 23;
        text.push_str(&format!("{:3} {:4} {:5} {:5}\r\n", 1 + reading / 8, reading % 8 * 3, level, water));
    }
    text.push_str("End of the survey.\r\n");
    text.into_bytes()
}

// An information with its check bytes, in a frame.
fn checked(protocol: u8, mut information: Vec<u8>) -> Vec<u8> {
    let check = remainder(&information);
    information.extend(check.to_be_bytes());
    framed(protocol, &information)
}

// An information in a frame to QST-1 from UOSAT5-11.
fn framed(protocol: u8, information: &[u8]) -> Vec<u8> {
    let mut frame = b"\xA2\xA6\xA8\x40\x40\x40\x62\xAA\x9E\xA6\x82\xA8\x6A\x77\x03".to_vec();
    frame.push(protocol);
    frame.extend(information);
    frame
}

// Bytes as a text of hexadecimal digits, 16 bytes to a line.
fn hexadecimal(bytes: &[u8]) -> Vec<u8> {
    let mut text = String::new();
    for line in bytes.chunks(16) {
        let pairs: Vec<String> = line.iter().map(|byte| format!("{byte:02X}")).collect();
        text.push_str(&pairs.join(" "));
        text.push('\n');
    }
    text.into_bytes()
}

// Figure 3.2, the information of a directory entry, as the copy in document 002 has it; its check bytes agree.
#[rustfmt::skip]
const FIGURE_3_2: &[u8] = &[
    0x20, 0x67, 0xAE, 0x00, 0x00, 0x00, 0x00, 0x00, 0x00, 0xE0, 0x7E, 0x3C, 0x38, 0xEE, 0xCF, 0x3D,
    0x38, 0xAA, 0x55, 0x01, 0x00, 0x04, 0x67, 0xAE, 0x00, 0x00, 0x02, 0x00, 0x08, 0x42, 0x4C, 0x39,
    0x39, 0x31, 0x31, 0x32, 0x34, 0x03, 0x00, 0x03, 0x20, 0x20, 0x20, 0x04, 0x00, 0x04, 0xE0, 0x06,
    0x00, 0x00, 0x05, 0x00, 0x04, 0x49, 0x2D, 0x3B, 0x38, 0x06, 0x00, 0x04, 0xE1, 0x7E, 0x3C, 0x38,
    0x12, 0x00, 0x04, 0xE0, 0x7E, 0x3C, 0x38, 0x07, 0x00, 0x01, 0x00, 0x08, 0x00, 0x01, 0xCA, 0x09,
    0x00, 0x02, 0xFB, 0x44, 0x0A, 0x00, 0x02, 0x84, 0x0C, 0x0B, 0x00, 0x02, 0x50, 0x00, 0x00, 0x00,
    0x00, 0x9D, 0x3D,
];

// Figure 3.3, the information of a file's first piece, as the copy in document 000 has it, seven of its bytes read as the
// hexadecimal digits that their Greek and Cyrillic letters look like; its check bytes agree.
#[rustfmt::skip]
const FIGURE_3_3: &[u8] = &[
    0x02, 0x7E, 0xAE, 0x00, 0x00, 0xC9, 0x00, 0x00, 0x00, 0xAA, 0x55, 0x01, 0x00, 0x04, 0x7E, 0xAE,
    0x00, 0x00, 0x02, 0x00, 0x08, 0x41, 0x4C, 0x39, 0x39, 0x31, 0x31, 0x32, 0x39, 0x03, 0x00, 0x03,
    0x20, 0x20, 0x20, 0x04, 0x00, 0x04, 0xC1, 0x03, 0x00, 0x00, 0x05, 0x00, 0x04, 0x64, 0xC5, 0x41,
    0x38, 0x06, 0x00, 0x04, 0x5B, 0xFC, 0x41, 0x38, 0x12, 0x00, 0x04, 0x5A, 0xFC, 0x41, 0x38, 0x07,
    0x00, 0x01, 0x00, 0x08, 0x00, 0x01, 0xC9, 0x09, 0x00, 0x02, 0xEB, 0xAD, 0x0A, 0x00, 0x02, 0x88,
    0x0D, 0x0B, 0x00, 0x02, 0x50, 0x00, 0x00, 0x00, 0x00, 0x12, 0x19, 0x5F, 0xC5, 0x41, 0x38, 0x00,
    0x00, 0x00, 0xA0, 0x67, 0x00, 0x00, 0x31, 0x00, 0x00, 0x00, 0x1C, 0x17, 0x00, 0x00, 0xEE, 0x9D,
    0x29, 0x2F, 0x12, 0x19, 0x6E, 0xC5, 0x41, 0x38, 0x00, 0x00, 0x00, 0xCF, 0x9F, 0x00, 0x00, 0x30,
    0x00, 0x00, 0x00, 0x1B, 0x17, 0x00, 0x00, 0xC2, 0xC0, 0xD3, 0x34, 0x12, 0x19, 0x72, 0xC5, 0x41,
    0x38, 0x00, 0x00, 0x00, 0xA6, 0xA1, 0x00, 0x00, 0x30, 0x00, 0x00, 0x00, 0x1B, 0x17, 0x00, 0x00,
    0x04, 0xAB, 0x2B, 0x35, 0x12, 0x19, 0x75, 0xC5, 0x41, 0x38, 0x00, 0x00, 0x00, 0xCF, 0xA2, 0x00,
    0x00, 0x30, 0x00, 0x00, 0x00, 0x1B, 0x17, 0x00, 0x00, 0x69, 0x6F, 0x63, 0x35, 0x12, 0x19, 0x79,
    0xC5, 0x41, 0x38, 0x00, 0x00, 0x00, 0x68, 0xA6, 0x00, 0x00, 0x30, 0x00, 0x00, 0x00, 0x1B, 0x17,
    0x00, 0x00, 0xC3, 0xB4, 0x37, 0x36, 0x11, 0x19, 0x7F, 0xC5, 0x41, 0x38, 0x00, 0x00, 0x00, 0x5A,
    0xAB, 0x00, 0x00, 0x30, 0x00, 0x00, 0x00, 0x1B, 0x17, 0x00, 0x00, 0xB6, 0x02, 0x7C, 0x37, 0x11,
    0x19, 0x84, 0xC5, 0x41, 0x38, 0x00, 0x00, 0x00, 0x5B, 0xAB, 0x00, 0x00, 0x31, 0xEE, 0x27,
];
